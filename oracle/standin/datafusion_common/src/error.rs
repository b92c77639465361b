use arrow::error::ArrowError;
use std::fmt;

#[derive(Debug)]
pub enum DataFusionError {
    NotImplemented(String),
    Execution(String),
    ArrowError(ArrowError),
}

pub type Result<T, E = DataFusionError> = std::result::Result<T, E>;

impl fmt::Display for DataFusionError {
    fn fmt(&self, f: &mut fmt::Formatter<'_>) -> fmt::Result {
        match self {
            DataFusionError::NotImplemented(text) => write!(f, "not implemented: {text}"),
            DataFusionError::Execution(text) => f.write_str(text),
            DataFusionError::ArrowError(error) => write!(f, "{error}"),
        }
    }
}

impl From<ArrowError> for DataFusionError {
    fn from(error: ArrowError) -> Self {
        DataFusionError::ArrowError(error)
    }
}

#[macro_export]
macro_rules! exec_datafusion_err {
    ($($text:tt)*) => { $crate::DataFusionError::Execution(format!($($text)*)) };
}

#[macro_export]
macro_rules! exec_err {
    ($($text:tt)*) => { Err($crate::exec_datafusion_err!($($text)*)) };
}

#[macro_export]
macro_rules! not_impl_err {
    ($($text:tt)*) => { Err($crate::DataFusionError::NotImplemented(format!($($text)*))) };
}

#[macro_export]
macro_rules! arrow_datafusion_err {
    ($error:expr) => {
        $crate::DataFusionError::ArrowError($error)
    };
}

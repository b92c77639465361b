//! A stand-in for the part of `datafusion_common` that the window functions use.

pub use arrow;

mod error;
mod scalar;
pub mod utils;

pub use error::{DataFusionError, Result};
pub use scalar::ScalarValue;

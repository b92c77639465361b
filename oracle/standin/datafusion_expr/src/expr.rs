use crate::WindowUDF;
use datafusion_common::ScalarValue;
use std::sync::Arc;

/// An expression of a query, as far as window functions build them.
#[derive(Debug, Clone)]
pub enum Expr {
    Column,
    Literal(ScalarValue),
    WindowFunction(Arc<WindowUDF>, Vec<Expr>),
}

pub trait Literal {
    fn lit(&self) -> Expr;
}

impl Literal for i64 {
    fn lit(&self) -> Expr {
        Expr::Literal(ScalarValue::Int64(Some(*self)))
    }
}

impl Literal for ScalarValue {
    fn lit(&self) -> Expr {
        Expr::Literal(self.clone())
    }
}

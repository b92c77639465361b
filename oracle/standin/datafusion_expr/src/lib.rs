//! A stand-in for the part of `datafusion_expr` that the window functions use.

mod evaluator;
mod expr;
mod signature;
mod udwf;
pub mod window_state;

pub use datafusion_doc::Documentation;
pub use evaluator::PartitionEvaluator;
pub use expr::{Expr, Literal};
pub use signature::{Signature, TypeSignature, Volatility};
pub use udwf::{LimitEffect, ReversedUDWF, WindowUDF, WindowUDFImpl};

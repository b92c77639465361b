use crate::{Documentation, Expr, PartitionEvaluator, Signature};
use arrow::compute::SortOptions;
use arrow::datatypes::FieldRef;
use datafusion_common::Result;
use datafusion_functions_window_common::expr::ExpressionArgs;
use datafusion_functions_window_common::field::WindowUDFFieldArgs;
use datafusion_functions_window_common::partition::PartitionEvaluatorArgs;
use datafusion_physical_expr_common::physical_expr::PhysicalExpr;
use std::fmt::Debug;
use std::sync::Arc;

/// What becomes of a window function when its window is turned round.
#[derive(Debug)]
pub enum ReversedUDWF {
    Identical,
    NotSupported,
    Reversed(Arc<WindowUDF>),
}

#[derive(Debug, PartialEq, Eq)]
pub enum LimitEffect {
    None,
    Unknown,
    Relative(usize),
    Absolute(usize),
}

pub trait WindowUDFImpl: Debug + Send + Sync {
    fn name(&self) -> &str;
    fn signature(&self) -> &Signature;
    fn partition_evaluator(
        &self,
        partition_evaluator_args: PartitionEvaluatorArgs,
    ) -> Result<Box<dyn PartitionEvaluator>>;
    fn field(&self, field_args: WindowUDFFieldArgs) -> Result<FieldRef>;

    fn expressions(&self, expr_args: ExpressionArgs) -> Vec<Arc<dyn PhysicalExpr>> {
        expr_args
            .input_exprs()
            .first()
            .cloned()
            .into_iter()
            .collect()
    }

    fn sort_options(&self) -> Option<SortOptions> {
        None
    }

    fn reverse_expr(&self) -> ReversedUDWF {
        ReversedUDWF::NotSupported
    }

    fn documentation(&self) -> Option<&Documentation> {
        None
    }

    fn limit_effect(&self, _args: &[Arc<dyn PhysicalExpr>]) -> LimitEffect {
        LimitEffect::Unknown
    }
}

/// A window function by its implementation.
#[derive(Debug)]
pub struct WindowUDF(Box<dyn WindowUDFImpl>);

impl WindowUDF {
    pub fn new(function: impl WindowUDFImpl + 'static) -> Self {
        WindowUDF(Box::new(function))
    }

    pub fn inner(&self) -> &dyn WindowUDFImpl {
        self.0.as_ref()
    }

    pub fn call(self: &Arc<Self>, args: Vec<Expr>) -> Expr {
        Expr::WindowFunction(Arc::clone(self), args)
    }
}

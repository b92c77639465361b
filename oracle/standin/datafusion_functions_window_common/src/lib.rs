//! A stand-in for `datafusion_functions_window_common`: the arguments of a window function.

pub mod expr {
    use arrow::datatypes::FieldRef;
    use datafusion_physical_expr_common::physical_expr::PhysicalExpr;
    use std::sync::Arc;

    #[derive(Debug, Clone, Copy)]
    pub struct ExpressionArgs<'a> {
        pub input_exprs: &'a [Arc<dyn PhysicalExpr>],
        pub input_fields: &'a [FieldRef],
    }

    impl<'a> ExpressionArgs<'a> {
        pub fn input_exprs(&self) -> &'a [Arc<dyn PhysicalExpr>] {
            self.input_exprs
        }

        pub fn input_fields(&self) -> &'a [FieldRef] {
            self.input_fields
        }
    }
}

pub mod field {
    use arrow::datatypes::FieldRef;

    #[derive(Debug, Clone, Copy)]
    pub struct WindowUDFFieldArgs<'a> {
        pub input_fields: &'a [FieldRef],
        pub name: &'a str,
    }

    impl<'a> WindowUDFFieldArgs<'a> {
        pub fn input_fields(&self) -> &'a [FieldRef] {
            self.input_fields
        }

        pub fn name(&self) -> &'a str {
            self.name
        }
    }
}

pub mod partition {
    use arrow::datatypes::FieldRef;
    use datafusion_physical_expr_common::physical_expr::PhysicalExpr;
    use std::sync::Arc;

    #[derive(Debug, Clone, Copy)]
    pub struct PartitionEvaluatorArgs<'a> {
        pub input_exprs: &'a [Arc<dyn PhysicalExpr>],
        pub input_fields: &'a [FieldRef],
        pub is_reversed: bool,
        pub ignore_nulls: bool,
    }

    impl<'a> PartitionEvaluatorArgs<'a> {
        pub fn input_exprs(&self) -> &'a [Arc<dyn PhysicalExpr>] {
            self.input_exprs
        }

        pub fn input_fields(&self) -> &'a [FieldRef] {
            self.input_fields
        }

        pub fn is_reversed(&self) -> bool {
            self.is_reversed
        }

        pub fn ignore_nulls(&self) -> bool {
            self.ignore_nulls
        }
    }
}

//! A stand-in for `datafusion_physical_expr`.

pub mod expressions {
    use datafusion_common::ScalarValue;
    use datafusion_physical_expr_common::physical_expr::PhysicalExpr;

    #[derive(Debug)]
    pub struct Literal(ScalarValue);

    impl Literal {
        pub fn new(value: ScalarValue) -> Self {
            Literal(value)
        }

        pub fn value(&self) -> &ScalarValue {
            &self.0
        }
    }

    impl PhysicalExpr for Literal {}

    /// A column of the input.
    #[derive(Debug)]
    pub struct Column;

    impl PhysicalExpr for Column {}
}

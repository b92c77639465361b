//! A stand-in for `datafusion_physical_expr_common`.

pub mod physical_expr {
    use std::any::Any;
    use std::fmt::Debug;

    pub trait PhysicalExpr: Any + Debug + Send + Sync {}

    impl dyn PhysicalExpr {
        pub fn downcast_ref<T: PhysicalExpr>(&self) -> Option<&T> {
            let any: &dyn Any = self;
            any.downcast_ref::<T>()
        }
    }
}

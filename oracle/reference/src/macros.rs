//! Stand-ins for the crate's macros that make a function's single instance and its expression.

macro_rules! get_or_init_udwf {
    ($name:ident, $function:ident, $instance:ident, $doc:expr, $make:path) => {
        pub fn $instance() -> std::sync::Arc<datafusion_expr::WindowUDF> {
            static INSTANCE: std::sync::LazyLock<std::sync::Arc<datafusion_expr::WindowUDF>> =
                std::sync::LazyLock::new(|| {
                    std::sync::Arc::new(datafusion_expr::WindowUDF::new($make()))
                });
            std::sync::Arc::clone(&INSTANCE)
        }
    };
}

macro_rules! define_udwf_and_expr {
    ($name:ident, $function:ident, [$arg:ident], $instance:ident, $doc:expr, $make:path) => {
        get_or_init_udwf!($name, $function, $instance, $doc, $make);
        pub fn $function($arg: datafusion_expr::Expr) -> datafusion_expr::Expr {
            $instance().call(vec![$arg])
        }
    };
    ($name:ident, $function:ident, $instance:ident, $doc:expr, $make:path) => {
        get_or_init_udwf!($name, $function, $instance, $doc, $make);
        pub fn $function() -> datafusion_expr::Expr {
            $instance().call(vec![])
        }
    };
    ($name:ident, $function:ident, $instance:ident, $doc:expr) => {
        define_udwf_and_expr!($name, $function, $instance, $doc, $name::default);
    };
}

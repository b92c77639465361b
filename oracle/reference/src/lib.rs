//! The window functions of datafusion-functions-window, compiled as they are from the folder that
//! WINDOW_SRC names.

#[macro_use]
mod macros;

include!(concat!(env!("OUT_DIR"), "/modules.rs"));

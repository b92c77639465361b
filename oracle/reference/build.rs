//! Writes a module for each of the crate's files, by its path, so that they are compiled unchanged.

use std::path::PathBuf;
use std::{env, fs};

const MODULES: [(&str, &str); 6] = [
    ("utils", ""),
    ("lead_lag", "pub "),
    ("nth_value", "pub "),
    ("rank", "pub "),
    ("row_number", "pub "),
    ("cume_dist", "pub "),
];

fn main() {
    println!("cargo:rerun-if-env-changed=WINDOW_SRC");
    let source = env::var("WINDOW_SRC")
        .expect("WINDOW_SRC names the src folder of datafusion-functions-window 55.0.0");
    let source = fs::canonicalize(&source).expect("WINDOW_SRC names a folder");
    let mut modules = String::new();
    for (name, visible) in MODULES {
        let file = source.join(name).with_extension("rs");
        assert!(file.is_file(), "{} is missing", file.display());
        println!("cargo:rerun-if-changed={}", file.display());
        modules += &format!("#[allow(dead_code)]\n#[path = {file:?}]\n{visible}mod {name};\n");
    }
    let out = PathBuf::from(env::var("OUT_DIR").expect("set by cargo"));
    fs::write(out.join("modules.rs"), modules).expect("OUT_DIR can be written");
}

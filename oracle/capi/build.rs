//! Where the static library stands, and the kit's functions of the C heap that it calls.
//!
//! `rt lib` in `crates/capi` makes the library; CAPI_LIB and RATTLE_C name other folders. Where either is missing
//! the crate is built all the same, and its tests are left out.

use std::path::{Path, PathBuf};

fn folder(variable: &str, default: &Path) -> PathBuf {
    println!("cargo:rerun-if-env-changed={variable}");
    std::env::var_os(variable).map_or(default.to_path_buf(), PathBuf::from)
}

/// The folder `c` beside the folder `bin` that `rt` is found in.
fn kit() -> Option<PathBuf> {
    let path = std::env::var_os("PATH")?;
    let rt = std::env::split_paths(&path).map(|dir| dir.join("rt")).find(|rt| rt.is_file())?;
    Some(rt.canonicalize().ok()?.parent()?.parent()?.join("c"))
}

fn main() {
    let here = PathBuf::from(env!("CARGO_MANIFEST_DIR"));
    let library = folder("CAPI_LIB", &here.join("../../crates/capi/out"));
    let heap = folder("RATTLE_C", &kit().unwrap_or_default());
    println!("cargo:rustc-check-cfg=cfg(linked)");
    let archives = [(&library, "capi"), (&heap, "libc_c")];
    let file = |(dir, name): (&PathBuf, &str)| dir.join(format!("lib{name}.a"));
    for archive in archives {
        println!("cargo:rerun-if-changed={}", file(archive).display());
    }
    if archives.into_iter().all(|archive| file(archive).is_file()) {
        for (dir, name) in archives {
            println!("cargo:rustc-link-search=native={}", dir.display());
            println!("cargo:rustc-link-lib=static:-bundle={name}");
        }
        println!("cargo:rustc-cfg=linked");
    }
}

//! Links libflow_c.a, which `rt lib` in the repository's crates/flow_c writes to its out/. NANNYJIFFY_LIB names another
//! folder that has it.

use std::env;
use std::path::PathBuf;

fn main() {
    println!("cargo:rerun-if-env-changed=NANNYJIFFY_LIB");
    let folder = env::var_os("NANNYJIFFY_LIB").map(PathBuf::from).unwrap_or_else(|| {
        let here = PathBuf::from(env::var_os("CARGO_MANIFEST_DIR").expect("set by cargo"));
        here.join("../../crates/flow_c/out")
    });
    let archive = folder.join("libflow_c.a");
    println!("cargo:rerun-if-changed={}", archive.display());
    assert!(archive.is_file(), "no {}: run `rt lib` in crates/flow_c, or set NANNYJIFFY_LIB", archive.display());
    println!("cargo:rustc-link-search=native={}", folder.display());
    println!("cargo:rustc-link-lib=static=flow_c");
}

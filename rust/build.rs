//! Links `libknappulf.a`: from the folder KNAPPULF_LIB_DIR, or else from where `rt lib` in crates/knappulf puts it.
use std::env;
use std::path::PathBuf;

fn main() {
    println!("cargo:rerun-if-env-changed=KNAPPULF_LIB_DIR");
    let folder = env::var_os("KNAPPULF_LIB_DIR").map(PathBuf::from).unwrap_or_else(|| {
        let here = env::var_os("CARGO_MANIFEST_DIR").expect("cargo names the folder");
        PathBuf::from(here).join("../crates/knappulf/out")
    });
    let archive = folder.join("libknappulf.a");
    if !archive.exists() {
        println!("cargo:warning=there is no {}: `rt lib` in crates/knappulf makes it", archive.display());
    }
    println!("cargo:rerun-if-changed={}", archive.display());
    println!("cargo:rustc-link-search=native={}", folder.display());
    println!("cargo:rustc-link-lib=static=knappulf");
}

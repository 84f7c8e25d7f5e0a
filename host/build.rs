//! Finds the static library that the repository builds, and links it.

use std::path::Path;

fn main() {
    if std::env::var_os("CARGO_FEATURE_LIBRARY").is_none() {
        return;
    }
    let host = std::env::var("CARGO_MANIFEST_DIR").expect("cargo names the package's folder");
    let folder = Path::new(&host).join("../target/staticlib");
    let library = folder.join("libcapi.a");
    println!("cargo:rerun-if-changed={}", library.display());
    if !library.exists() {
        eprintln!("The library is missing: run `tools/build library` in the repository first.");
        std::process::exit(1);
    }
    println!("cargo:rustc-link-search=native={}", folder.display());
    println!("cargo:rustc-link-lib=static=capi");
}

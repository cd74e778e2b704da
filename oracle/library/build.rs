//! Links the proved libraries, which `tools/staticlib` writes in the repository's root.

use std::env;

const VARIABLE: &str = "JAVUNDIRU_STATICLIB";

fn main() {
    println!("cargo:rerun-if-env-changed={VARIABLE}");
    let folder = env::var(VARIABLE).unwrap_or_else(|_| {
        let here = env::var("CARGO_MANIFEST_DIR").expect("cargo names the package's folder");
        format!("{here}/../../target/staticlib")
    });
    println!("cargo:rustc-link-search=native={folder}");
    link(&folder, "host");
    if env::var_os("CARGO_FEATURE_DRIVER").is_some() {
        link(&folder, "driver");
    }
}

fn link(folder: &str, library: &str) {
    println!("cargo:rustc-link-lib=static={library}");
    println!("cargo:rerun-if-changed={folder}/lib{library}.a");
}

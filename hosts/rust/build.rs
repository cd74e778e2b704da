// Links the proved library, which `tools/staticlib host` writes in the repository's root.
fn main() {
    let here = std::env::var("CARGO_MANIFEST_DIR").expect("cargo names the package's folder");
    let library = format!("{here}/../../target/staticlib");
    println!("cargo:rustc-link-search=native={library}");
    println!("cargo:rustc-link-lib=static=host");
    println!("cargo:rerun-if-changed={library}/libhost.a");
}

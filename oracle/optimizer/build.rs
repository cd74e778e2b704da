//! Writes the module declarations of the three original files. They are modules by path, since files that begin with `//!`
//! cannot be included.

use std::env;
use std::fs;
use std::path::{Path, PathBuf};

const VARIABLE: &str = "DATAFUSION_OPTIMIZER_SRC";
const MODULES: [&str; 3] = ["limit_pushdown", "limit_pushdown_past_window", "limited_distinct_aggregation"];

fn main() {
    println!("cargo:rerun-if-env-changed={VARIABLE}");
    let folder = source_folder();
    let declarations: String = MODULES.iter().map(|module| declaration(&folder, module)).collect();
    let out = PathBuf::from(env::var_os("OUT_DIR").expect("cargo sets OUT_DIR"));
    fs::write(out.join("rules.rs"), declarations).expect("OUT_DIR can be written");
}

fn source_folder() -> PathBuf {
    let Some(folder) = env::var_os(VARIABLE) else {
        fail(&format!("set {VARIABLE} to the folder with the original files; README.md says which they are"));
    };
    match fs::canonicalize(&folder) {
        Ok(folder) => folder,
        Err(error) => fail(&format!("{VARIABLE} names {}: {error}", Path::new(&folder).display())),
    }
}

fn declaration(folder: &Path, module: &str) -> String {
    let file = folder.join(format!("{module}.rs"));
    if !file.is_file() {
        fail(&format!("{} is missing", file.display()));
    }
    println!("cargo:rerun-if-changed={}", file.display());
    format!("#[path = {file:?}]\npub mod {module};\n")
}

fn fail(message: &str) -> ! {
    eprintln!("{message}");
    std::process::exit(1);
}

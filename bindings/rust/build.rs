//! Tells the linker where the static library of the proved calls lies; `src/raw.rs` names it.

use std::env;
use std::path::Path;
use std::path::PathBuf;

const FOLDER_VARIABLE: &str = "BRIDGENOOK_LIBRARY";

/// A relative path would be taken from this package's folder, where cargo runs this program.
fn folder() -> PathBuf {
    match env::var_os(FOLDER_VARIABLE) {
        Some(folder) => PathBuf::from(folder),
        None => Path::new(env!("CARGO_MANIFEST_DIR")).join("../../build"),
    }
}

fn main() {
    let library = folder().join("libbridgenook.a");
    println!("cargo::rerun-if-env-changed={FOLDER_VARIABLE}");
    println!("cargo::rerun-if-changed={}", library.display());
    if !library.is_file() {
        println!(
            "cargo::error={} is missing: `bash scripts/library` makes build/libbridgenook.a, and {FOLDER_VARIABLE} may name another folder",
            library.display()
        );
    }
    println!("cargo::rustc-link-search=native={}", folder().display());
}

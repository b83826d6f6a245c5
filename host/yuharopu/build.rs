//! Links the static library that `tools/staticlib` writes.

use std::env;
use std::path::PathBuf;

const FOLDER_VARIABLE: &str = "YUHAROPU_LIB_DIR";

fn main() {
    println!("cargo::rerun-if-env-changed={FOLDER_VARIABLE}");
    println!("cargo::rerun-if-changed=build.rs");
    let folder = library_folder();
    let archive = folder.join("libyuharopu.a");
    println!("cargo::rerun-if-changed={}", archive.display());
    if !archive.is_file() {
        println!(
            "cargo::error={} is missing: run `tools/staticlib` first",
            archive.display()
        );
        return;
    }
    println!("cargo::rustc-link-search=native={}", folder.display());
    println!("cargo::rustc-link-lib=static=yuharopu");
}

fn library_folder() -> PathBuf {
    if let Some(folder) = env::var_os(FOLDER_VARIABLE) {
        return PathBuf::from(folder);
    }
    let this_crate = PathBuf::from(env::var_os("CARGO_MANIFEST_DIR").expect("CARGO_MANIFEST_DIR"));
    this_crate.join("../../target/staticlib")
}

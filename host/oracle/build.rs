//! Takes the original's files, unchanged, and names them as modules of this crate.

use std::env;
use std::fs;
use std::path::{Path, PathBuf};

const SOURCE_VARIABLE: &str = "YUHAROPU_ORACLE_SRC";
const SOURCE_BESIDE_REPOSITORY: &str = "../shared/docs/src";
const FILES: [&str; 5] = [
    "src/config.rs",
    "src/stable/memory.rs",
    "src/stable/meta.rs",
    "src/sqlite_vfs/overlay.rs",
    "src/sqlite_vfs/stable_blob.rs",
];

fn main() {
    println!("cargo::rerun-if-env-changed={SOURCE_VARIABLE}");
    println!("cargo::rerun-if-changed=build.rs");
    println!("cargo::rustc-check-cfg=cfg(original)");
    let source = source_folder();
    for file in FILES {
        println!("cargo::rerun-if-changed={}", source.join(file).display());
    }
    let out = PathBuf::from(env::var_os("OUT_DIR").expect("OUT_DIR"));
    if FILES.iter().all(|file| source.join(file).is_file()) {
        copy_files(&source, &out);
        fs::write(out.join("modules.rs"), modules(&out)).expect("the list of modules");
        println!("cargo::rustc-cfg=original");
    }
}

fn source_folder() -> PathBuf {
    if let Some(folder) = env::var_os(SOURCE_VARIABLE) {
        return PathBuf::from(folder);
    }
    let this_crate = PathBuf::from(env::var_os("CARGO_MANIFEST_DIR").expect("CARGO_MANIFEST_DIR"));
    this_crate.join("../..").join(SOURCE_BESIDE_REPOSITORY)
}

fn copy_files(source: &Path, out: &Path) {
    for file in FILES {
        let copy = out.join(file);
        fs::create_dir_all(copy.parent().expect("a folder")).expect("a folder for the copy");
        fs::copy(source.join(file), copy).expect("a copy of the original's file");
    }
}

/// The module tree of the original, with stand-ins for the modules that are not among its files.
fn modules(out: &Path) -> String {
    let path = |file: &str| format!("#[path = {:?}]", out.join(file));
    format!(
        "{config} #[allow(dead_code)] mod config;
#[allow(dead_code, unexpected_cfgs, clippy::all)]
mod stable {{
    {memory} pub mod memory;
    {meta} pub mod meta;
    pub use crate::present::stand_in::{{memory_manager, raw_memory}};
}}
#[allow(dead_code, unexpected_cfgs, clippy::all)]
mod sqlite_vfs {{
    {overlay} pub mod overlay;
    {blob} pub mod stable_blob;
}}
",
        config = path(FILES[0]),
        memory = path(FILES[1]),
        meta = path(FILES[2]),
        overlay = path(FILES[3]),
        blob = path(FILES[4]),
    )
}

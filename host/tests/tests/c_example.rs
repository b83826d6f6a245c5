//! The program in examples/: it compiles with the header, links with the library and prints what is written down.

use std::path::{Path, PathBuf};
use std::process::Command;

fn project() -> PathBuf {
    Path::new(env!("CARGO_MANIFEST_DIR")).join("../..")
}

fn archive() -> PathBuf {
    let folder = std::env::var_os("YUHAROPU_LIB_DIR").map(PathBuf::from);
    let folder = folder.unwrap_or_else(|| project().join("target/staticlib"));
    folder.join("libyuharopu.a")
}

#[test]
fn store() {
    let program = Path::new(env!("CARGO_TARGET_TMPDIR")).join("store_example");
    let compiled = Command::new("cc")
        .args(["-std=c11", "-Wall", "-Wextra", "-Werror", "-pedantic", "-I"])
        .arg(project().join("include"))
        .arg(project().join("examples/store.c"))
        .arg(archive())
        .arg("-o")
        .arg(&program)
        .output()
        .expect("cc");
    let errors = String::from_utf8_lossy(&compiled.stderr);
    assert!(compiled.status.success(), "cc: {errors}");
    let ran = Command::new(&program).output().expect("the program");
    assert!(ran.status.success(), "{:?}", ran.status);
    let expected = std::fs::read(project().join("examples/store.out")).expect("examples/store.out");
    assert_eq!(
        String::from_utf8_lossy(&ran.stdout),
        String::from_utf8_lossy(&expected)
    );
}

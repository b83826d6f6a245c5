//! The parameters of each C function: the same in the header, in the Rust that calls it, in the crate that defines it and in the one that exports it.

use std::collections::BTreeMap;
use std::path::{Path, PathBuf};

/// The types of each function's parameters, in order.
type Functions = BTreeMap<String, Vec<&'static str>>;

fn project() -> PathBuf {
    Path::new(env!("CARGO_MANIFEST_DIR")).join("../..")
}

fn text(path: &str) -> String {
    std::fs::read_to_string(project().join(path)).expect(path)
}

/// Each `yuharopu_NAME(PARAMETERS)` in the text whose parameters are types that are known here.
fn functions(text: &str, types: &[(&str, &[&'static str])]) -> Functions {
    let mut found = Functions::new();
    for part in text.split("yuharopu_").skip(1) {
        let Some((name, rest)) = part.split_once('(') else {
            continue;
        };
        let named = name.chars().all(|c| c.is_ascii_alphanumeric() || c == '_');
        let Some((parameters, _)) = rest.split_once(')') else {
            continue;
        };
        let of_one = |parameter: &str| {
            let parameter = parameter.split_whitespace().collect::<Vec<_>>().join(" ");
            let known = types.iter().find(|(form, _)| parameter.contains(form));
            known.map(|(_, types)| types.to_vec())
        };
        let parameters = parameters.split(',').filter(|text| !text.trim().is_empty());
        let types: Option<Vec<_>> = parameters.map(of_one).collect();
        if let (true, Some(types)) = (named, types) {
            found.insert(name.to_string(), types.concat());
        }
    }
    found
}

fn in_header() -> Functions {
    let types: [(&str, &[&str]); 6] = [
        ("const uint8_t *", &["bytes"]),
        ("const uint64_t *", &["numbers"]),
        ("uint8_t *", &["mut bytes"]),
        ("uint64_t *", &["mut numbers"]),
        ("size_t ", &["length"]),
        ("uint64_t ", &["number"]),
    ];
    functions(&text("include/yuharopu.h"), &types)
}

#[test]
fn in_rust() {
    let types: [(&str, &[&str]); 6] = [
        (": *const u8", &["bytes"]),
        (": *const u64", &["numbers"]),
        (": *mut u8", &["mut bytes"]),
        (": *mut u64", &["mut numbers"]),
        (": usize", &["length"]),
        (": u64", &["number"]),
    ];
    let declared = functions(&text("host/yuharopu/src/ffi/declared.rs"), &types);
    assert_eq!(declared.len(), 25);
    assert_eq!(declared, in_header());
}

fn in_crate(name: &str) -> Functions {
    let types: [(&str, &[&str]); 5] = [
        (": &[u8]", &["bytes", "length"]),
        (": &[u64]", &["numbers", "length"]),
        (": &mut [u8]", &["mut bytes", "length"]),
        (": &mut [u64]", &["mut numbers", "length"]),
        (": u64", &["number"]),
    ];
    let folder = project().join("crates").join(name).join("src");
    let files = std::fs::read_dir(folder).expect("the crate's files");
    let mut defined = Functions::new();
    for file in files {
        let text = std::fs::read_to_string(file.expect("a file").path()).expect("a text");
        defined.extend(functions(&text, &types));
    }
    defined
}

#[test]
fn in_the_crate() {
    assert_eq!(in_crate("yuharopu"), in_header());
    assert_eq!(in_crate("yuharopu_c"), in_header());
}

//! The first use in Rust that README.md shows is the example's text, and it runs.

include!("../../yuharopu/examples/first_use.rs");

#[test]
fn runs() {
    assert_eq!(main(), Ok(()));
}

#[test]
fn is_in_the_readme() {
    let readme = include_str!("../../../README.md");
    let example = include_str!("../../yuharopu/examples/first_use.rs");
    let indented = |line: &str| match line {
        "" => "\n".to_string(),
        _ => format!("    {line}\n"),
    };
    let shown: String = example.lines().map(indented).collect();
    assert!(readme.contains(&shown), "{shown}");
}

//! Writes the files of recorded answers.

use conformance::{recorded, recorded_calls};

fn main() {
    if !oracle::AVAILABLE {
        eprintln!("record: the original's files are not at hand; name their folder in YUHAROPU_ORACLE_SRC");
        std::process::exit(1);
    }
    let text = recorded::of_original();
    std::fs::write(recorded::path(), &text).expect("the file of recorded answers");
    println!("{} lines of superblocks", text.lines().count());
    let text = recorded_calls::of_original(&recorded_calls::drawn());
    std::fs::write(recorded_calls::path(), &text).expect("the file of recorded calls");
    println!("{} lines of calls", text.lines().count());
}

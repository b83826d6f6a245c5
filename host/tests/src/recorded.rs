//! The original's answers, kept in a file.

use crate::answer::{Answer, Summary};
use crate::recipe::RECIPES;
use std::fmt::Write;
use std::path::PathBuf;

const PER_RECIPE: u64 = 30;
const HEADER: &str = "\
# Answers of the original to superblocks, written by `cargo run --release --offline --bin record` in host/.
# recipe index number value fields memory: the recipe and the index give the superblock, the number is 0 or that of
# the refusal, and the last two, hexadecimal, are digests of the 21 fields and of memory after a store.
";

pub struct Line {
    pub index: u64,
    pub summary: Summary,
}

pub fn path() -> PathBuf {
    PathBuf::from(env!("CARGO_MANIFEST_DIR")).join("../recorded/superblocks.txt")
}

pub fn text() -> String {
    std::fs::read_to_string(path()).expect("the recorded answers")
}

pub fn of_recipe(name: &str) -> Vec<Line> {
    let text = text();
    let lines = text.lines().filter(|line| !line.starts_with('#'));
    let words = lines.map(|line| line.split(' ').collect::<Vec<_>>());
    words
        .filter(|words| words[0] == name)
        .map(|words| parse(&words))
        .collect()
}

fn parse(words: &[&str]) -> Line {
    let number = |at: usize, radix| u64::from_str_radix(words[at], radix).expect("a number");
    Line {
        index: number(1, 10),
        summary: Summary {
            number: number(2, 10),
            value: number(3, 10),
            fields: number(4, 16),
            memory: number(5, 16),
        },
    }
}

/// The file as the original has it: some cases of each recipe, spread over all of them.
pub fn of_original() -> String {
    let mut text = String::from(HEADER);
    for recipe in &RECIPES {
        for sample in 0..PER_RECIPE {
            let index = sample * recipe.total / PER_RECIPE + sample % 7;
            let answer = Answer::of_original(&recipe.case(index)).summary();
            writeln!(
                text,
                "{} {index} {} {} {:x} {:x}",
                recipe.name, answer.number, answer.value, answer.fields, answer.memory
            )
            .expect("a string takes any text");
        }
    }
    text
}

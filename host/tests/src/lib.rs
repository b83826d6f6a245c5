//! Superblocks made from a recipe and an index, answered by the library and by the original, and compared; plans of
//! commits, from a seed or made by hand; and lists of calls on an image.
//!
//! Where the original's files are not at hand, its recorded answers stand for it, and models of documents 01 and 02.

pub mod answer;
pub mod block;
pub mod commit;
pub mod malformed;
pub mod plan;
pub mod plan_case;
pub mod plan_row;
pub mod plan_text;
pub mod prng;
pub mod recipe;
pub mod recorded;
pub mod recorded_calls;
pub mod store;

use answer::Answer;
use recipe::Recipe;
use std::io::Write;

/// Compares the library with the original on every case of a recipe, or on those whose answers are recorded.
pub fn compare(name: &str) {
    let recipe = recipe::named(name);
    if oracle::AVAILABLE {
        for index in 0..recipe.total {
            let case = recipe.case(index);
            let original = Answer::of_original(&case);
            agree(
                recipe,
                index,
                Answer::of_library(&case).difference(&original),
            );
        }
    } else {
        let replayed = replay(recipe);
        say(&format!(
            "the original's files are not at hand: {name} replays {replayed} recorded answers of {}",
            recipe.total
        ));
    }
}

/// Holds the library to the recorded answers of a recipe, and says how many there are.
pub fn replay(recipe: &Recipe) -> usize {
    let lines = recorded::of_recipe(recipe.name);
    assert!(!lines.is_empty(), "no recorded answer of {}", recipe.name);
    for line in &lines {
        let answer = Answer::of_library(&recipe.case(line.index)).summary();
        let differs = answer != line.summary;
        let text = format!("recorded {:?}, answered {answer:?}", line.summary);
        agree(recipe, line.index, differs.then_some(text));
    }
    lines.len()
}

fn agree(recipe: &Recipe, index: u64, difference: Option<String>) {
    if let Some(text) = difference {
        panic!(
            "recipe {}, index {index}, seed {:#018x}: {text}",
            recipe.name,
            recipe.seed(index)
        );
    }
}

/// Writes past the test harness, which keeps what a passing test prints to itself.
pub fn say(text: &str) {
    let line = format!("{text}\n");
    std::io::stderr()
        .write_all(line.as_bytes())
        .expect("standard error");
}

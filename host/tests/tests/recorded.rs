//! The files of recorded answers.

use conformance::recipe::RECIPES;
use conformance::{recorded, recorded_calls, replay};

#[test]
fn library_gives_the_recorded_answers() {
    let replayed: usize = RECIPES.iter().map(replay).sum();
    assert!(replayed >= 300, "{replayed} answers are too few");
}

#[test]
fn file_is_what_the_original_answers() {
    if !oracle::AVAILABLE {
        conformance::say(
            "the original's files are not at hand: the recorded answers are taken as they are",
        );
        return;
    }
    let (file, now) = (recorded::text(), recorded::of_original());
    same(&file, &now);
    let file = recorded_calls::text();
    same(
        &file,
        &recorded_calls::of_original(&recorded_calls::lists(&file)),
    );
}

#[test]
fn library_gives_the_recorded_answers_to_calls() {
    let file = recorded_calls::text();
    let lists = recorded_calls::lists(&file);
    same(&file, &recorded_calls::of_library(&lists));
    let calls: usize = lists.iter().map(|list| list.calls.len()).sum();
    assert!(calls >= 3_000, "{calls} calls are too few");
}

fn same(file: &str, now: &str) {
    let differs = |(a, b): &(&str, &str)| a != b;
    let first = file.lines().zip(now.lines()).find(differs);
    assert_eq!(first, None, "record the answers again");
    assert_eq!(file, now, "record the answers again");
}

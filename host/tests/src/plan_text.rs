//! The text of the program zeroplan, read and written apart from it.

use crate::plan::{is_normalized, Input, Plan, Run, MAX_RUNS};
use std::collections::BTreeSet;

pub const MOST_BYTES: usize = 65_536;
const KEYS: [&str; 5] = ["old_size", "new_size", "extent", "record", "dirty"];

pub fn spell(input: &Input) -> String {
    let run = |key: &str, (start, end): &Run| format!("{key}={start}-{end}\n");
    let mut text = format!("old_size={}\nnew_size={}\n", input.old_size, input.new_size);
    text.extend(input.extents.iter().map(|extent| run("extent", extent)));
    text.extend(input.record.iter().map(|entry| run("record", entry)));
    text.extend(input.dirty.iter().map(|page| format!("dirty={page}\n")));
    text
}

/// What the program prints for a text.
pub fn expected(text: &[u8]) -> String {
    match read(text) {
        Some(input) => report(&input, &input.by_parts()),
        None => String::from("result=malformed\n"),
    }
}

pub fn report(input: &Input, plan: &Plan) -> String {
    let Ok(runs) = plan else {
        return String::from("result=extents\n");
    };
    let (pages, count) = (input.pages(), runs.len());
    let mut text = format!("result=accepted\npages={pages}\nextents={count}\n");
    let line = |(start, end): &Run| format!("extent={start}-{end}\n");
    text.extend(runs.iter().map(line));
    text
}

/// What a text says, or none where it is malformed.
pub fn read(text: &[u8]) -> Option<Input> {
    if text.len() > MOST_BYTES {
        return None;
    }
    let text = std::str::from_utf8(text).ok()?;
    let mut values: [Vec<&str>; 5] = Default::default();
    let mut last = 0;
    for line in text.strip_suffix('\n').unwrap_or(text).split('\n') {
        let (key, value) = line.split_once('=')?;
        let rank = KEYS.iter().position(|known| *known == key)?;
        if rank < last {
            return None;
        }
        last = rank;
        values[rank].push(value);
    }
    let [old_size, new_size, extents, record, dirty] = &values;
    let input = Input {
        old_size: only(old_size)?,
        new_size: only(new_size)?,
        extents: extents
            .iter()
            .map(|value| run(value))
            .collect::<Option<_>>()?,
        record: record
            .iter()
            .map(|value| run(value))
            .collect::<Option<_>>()?,
        dirty: dirty
            .iter()
            .map(|value| number(value))
            .collect::<Option<_>>()?,
    };
    allowed(&input).then_some(input)
}

fn allowed(input: &Input) -> bool {
    let counts = [input.extents.len(), input.record.len(), input.dirty.len()];
    let distinct: BTreeSet<&u64> = input.dirty.iter().collect();
    counts.iter().all(|count| *count <= MAX_RUNS)
        && is_normalized(&input.extents)
        && input.record.iter().all(|(start, end)| start < end)
        && distinct.len() == input.dirty.len()
}

fn only(values: &[&str]) -> Option<u64> {
    match values {
        [value] => number(value),
        _ => None,
    }
}

fn run(value: &str) -> Option<Run> {
    let (start, end) = value.split_once('-')?;
    Some((number(start)?, number(end)?))
}

/// A decimal as it is printed, and no other spelling of it.
fn number(value: &str) -> Option<u64> {
    let number: u64 = value.parse().ok()?;
    (number.to_string() == value).then_some(number)
}

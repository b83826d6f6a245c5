//! Inputs of plans, made from a seed.

use crate::plan::{Input, Run, MAX_RUNS, PAGE};
use crate::prng::Prng;

/// Page numbers of the small part of an input lie below this.
const NEAR: u64 = 40;

/// How an input is made.
#[derive(Clone, Copy, Debug)]
pub enum Kind {
    /// Few runs of small pages.
    Small,
    /// The same with far runs, so many that the limits are near.
    Full,
    /// Many entries of each kind, of small pages.
    Crowded,
    /// Any numbers, mostly at the ends of their range.
    Wide,
}

impl Kind {
    /// Any list of runs as extents, empty entries in the record and pages that are dirty twice among them.
    pub fn input(self, prng: &mut Prng) -> Input {
        match self {
            Kind::Small => small(prng),
            Kind::Full => full(prng),
            Kind::Crowded => crowded(prng),
            Kind::Wide => wide(prng),
        }
    }
}

fn many<T>(prng: &mut Prng, most: u64, make: impl Fn(&mut Prng) -> T) -> Vec<T> {
    (0..prng.below(most + 1)).map(|_| make(prng)).collect()
}

/// A size of about this many pages, often a multiple of the page.
pub fn size(prng: &mut Prng, pages: u64) -> u64 {
    let whole = prng.below(pages) * PAGE;
    whole + prng.pick(&[0, 0, 0, 1, PAGE - 1, PAGE / 2])
}

/// A run that begins below `pages`, now and then empty or turned around.
fn run(prng: &mut Prng, pages: u64, longest: u64) -> Run {
    let start = prng.below(pages);
    match prng.below(12) {
        0 => (start, start),
        1 => (start, start / 2),
        _ => (start, start + 1 + prng.below(longest)),
    }
}

fn small(prng: &mut Prng) -> Input {
    let old_size = size(prng, NEAR);
    let new_size = prng.below(4).checked_sub(1).map(|_| size(prng, NEAR));
    Input {
        old_size,
        new_size: new_size.unwrap_or(old_size),
        extents: many(prng, 8, |prng| run(prng, NEAR, 5)),
        record: many(prng, 6, |prng| run(prng, NEAR, 9)),
        dirty: many(prng, 8, |prng| prng.below(NEAR)),
    }
}

/// So many runs of one to three pages, from `first` on, with gaps of a page or two.
pub fn far_runs(prng: &mut Prng, first: u64, count: usize) -> Vec<Run> {
    let mut next = first;
    let mut make = |_| {
        let start = next;
        let end = start + 1 + prng.below(3);
        next = end + 1 + prng.below(2);
        (start, end)
    };
    (0..count).map(&mut make).collect()
}

/// The far runs fill the list but for a few places.
fn full(prng: &mut Prng) -> Input {
    let mut input = small(prng);
    if prng.below(4) > 0 {
        input = input.tidied();
    }
    input.dirty.truncate(prng.pick(&[0, 0, 1, 2, 8]));
    let room = MAX_RUNS - input.extents.len();
    let count = room - prng.pick(&[0, 0, 0, 1, 2, 5]);
    input.extents.extend(far_runs(prng, 2 * NEAR, count));
    if prng.below(4) == 0 {
        shuffle(prng, &mut input.extents);
    }
    input
}

/// Long lists: over few pages they merge, over many they stay apart.
fn crowded(prng: &mut Prng) -> Input {
    let pages = prng.pick(&[300, 3_000, 9_000]);
    let most = MAX_RUNS as u64;
    let old_size = size(prng, pages);
    let count = prng.pick(&[10, most / 2, most, most]) as usize;
    let entries = prng.pick(&[60, most]);
    let dirty = prng.pick(&[20, most]);
    Input {
        old_size,
        new_size: old_size + size(prng, 20),
        extents: far_runs(prng, 0, count),
        record: many(prng, entries, |prng| run(prng, pages, 2)),
        dirty: many(prng, dirty, |prng| prng.below(pages)),
    }
}

fn wide(prng: &mut Prng) -> Input {
    let old_size = prng.field();
    let new_size = if prng.below(4) == 0 {
        old_size
    } else {
        prng.field()
    };
    let (old, new) = (old_size.div_ceil(PAGE), new_size.div_ceil(PAGE));
    let page = |prng: &mut Prng| match prng.below(4) {
        0 => prng.pick(&[old, new]).saturating_add(prng.below(4)),
        1 => prng.pick(&[old, new]).saturating_sub(prng.below(4)),
        2 => u64::MAX - prng.below(12),
        _ => prng.field(),
    };
    let run = |prng: &mut Prng| {
        let start = page(prng);
        let near = start.saturating_add(prng.below(4));
        (start, if prng.below(2) == 0 { near } else { page(prng) })
    };
    Input {
        old_size,
        new_size,
        extents: many(prng, 8, run),
        record: many(prng, 8, run),
        dirty: many(prng, 8, page),
    }
}

pub fn shuffle<T>(prng: &mut Prng, list: &mut [T]) {
    for last in (1..list.len()).rev() {
        list.swap(last, prng.below(last as u64 + 1) as usize);
    }
}

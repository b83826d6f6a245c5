//! Updates of whole pages on an image of 2,048 pages, and their commits alone.

use super::clock::{measure, time, Row};
use super::side::{Held, Pair, Side};
use super::{image, PAGE, RUNS};
use std::time::Duration;

const PAGES: u64 = 2_048;
/// Pages made dirty, frames lent, updates a round. The last lends more than the update needs: all of it becomes zeros.
const UPDATES: [(u64, usize, u32); 4] = [(1, 1, 32), (64, 64, 2), (1_024, 1_024, 1), (1, 1_024, 4)];

/// Truncations to whole pages, each of which records a run and makes no page dirty.
const TRUNCATIONS: u64 = 1_024;
/// The pages that the file grows by, at most.
const GROWN: u64 = 104;
/// One less than an image may have: the grown pages are one more.
const RECORDED_RUNS: [u64; 2] = [0, 1_023];

pub fn report() {
    for (dirty, frames, updates) in UPDATES {
        for runs in RUNS {
            let pair = Pair::open(PAGES, runs, frames, 0);
            update(
                pair,
                "",
                Shape {
                    runs,
                    dirty,
                    frames,
                    updates,
                },
            );
        }
    }
    RECORDED_RUNS.into_iter().for_each(recorded);
    // a `Store` lends what a call can need
    for (dirty, frames, updates) in UPDATES.into_iter().skip(2) {
        for runs in RUNS {
            let pair = Pair::wrapped(PAGES, runs, frames);
            update(
                pair,
                ", by a Store",
                Shape {
                    runs,
                    dirty,
                    frames,
                    updates,
                },
            );
        }
    }
}

/// The size after a truncation: never that before it.
fn size(at: u64) -> u64 {
    (PAGES + 1 + at * 37 % (GROWN - 3)) * PAGE
}

fn recorded(runs: u64) {
    let spare = (GROWN * PAGE) as usize;
    let mut pair = Pair::recording(PAGES, runs, TRUNCATIONS as usize, spare);
    let round = |side: &mut dyn Side| {
        let mut commit = Duration::ZERO;
        let all = time(|| {
            side.begin();
            (0..TRUNCATIONS).for_each(|at| side.truncate(size(at)));
            commit = time(|| side.commit());
        });
        [all, commit]
    };
    let [all, commit] = measure(&mut pair, 1, round);
    pair.is_same();
    let frames = 0;
    let name = "update of 1,024 truncations with its commit";
    all.print(&Row { name, runs, frames });
    let name = "its commit alone, 1,024 recorded runs";
    commit.print(&Row { name, runs, frames });
}

struct Shape {
    runs: u64,
    dirty: u64,
    frames: usize,
    updates: u32,
}

fn update<L: Held>(mut pair: Pair<L>, how: &str, shape: Shape) {
    let Shape {
        runs,
        dirty,
        frames,
        updates,
    } = shape;
    let bytes = image::bytes(PAGE as usize);
    let round = |side: &mut dyn Side| {
        let mut commits = Duration::ZERO;
        let all = time(|| {
            for _ in 0..updates {
                side.begin();
                for page in 0..dirty {
                    side.write(page * PAGE, &bytes);
                }
                commits += time(|| side.commit());
            }
        });
        [all, commits]
    };
    let [all, commits] = measure(&mut pair, updates, round);
    pair.is_same();
    let name = &format!("update of whole pages with its commit, {dirty} dirty{how}");
    all.print(&Row { name, runs, frames });
    let name = &format!("its commit alone, {dirty} dirty{how}");
    commits.print(&Row { name, runs, frames });
}

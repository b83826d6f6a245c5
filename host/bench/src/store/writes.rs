//! Writes in an update, on an image of 2,048 pages, and direct ones.

use super::clock::{measure, time, Row};
use super::side::{make_dirty, Pair, Side};
use super::{image, PAGE, RUNS, SMALL};

const PAGES: u64 = 2_048;
const DIRTY: [u64; 3] = [0, 64, 1_023];
/// As many new pages as a round makes dirty, behind those that are dirty already.
const NEW: u64 = 16;
const FIRST_NEW: u64 = 1_536;
const TO_DIRTY: u64 = 256;
const DIRECT: u64 = 32;

pub fn report() {
    for (len, of) in [(SMALL, "100 bytes"), (PAGE as usize, "a whole page")] {
        for dirty in DIRTY {
            for runs in RUNS {
                new_page(of, runs, len, dirty);
            }
        }
    }
    for dirty in DIRTY {
        for runs in RUNS {
            dirty_page(runs, dirty.max(1));
        }
    }
    for runs in RUNS {
        direct(runs);
    }
}

fn new_page(of: &str, runs: u64, len: usize, dirty: u64) {
    let frames = (dirty + NEW) as usize;
    let mut pair = Pair::open(PAGES, runs, frames, 0);
    let bytes = image::bytes(len);
    let round = |side: &mut dyn Side| {
        make_dirty(side, dirty);
        let took = time(|| {
            for at in 0..NEW {
                side.write((FIRST_NEW + at) * PAGE, &bytes);
            }
        });
        side.rollback();
        [took]
    };
    let [times] = measure(&mut pair, NEW as u32, round);
    pair.is_same();
    pair.both(|side| {
        make_dirty(side, dirty);
        side.write(FIRST_NEW * PAGE, &bytes);
    });
    pair.read_same(FIRST_NEW * PAGE, PAGE as usize);
    let name = &format!("write {of} to a new page, {dirty} dirty");
    times.print(&Row { name, runs, frames });
}

fn dirty_page(runs: u64, dirty: u64) {
    let frames = dirty as usize;
    let mut pair = Pair::open(PAGES, runs, frames, 0);
    pair.both(|side| make_dirty(side, dirty));
    let bytes = image::bytes(SMALL);
    let round = |side: &mut dyn Side| {
        let took = time(|| {
            for at in 0..TO_DIRTY {
                side.write((dirty - 1) * PAGE + 8 * at, &bytes);
            }
        });
        [took]
    };
    let [times] = measure(&mut pair, TO_DIRTY as u32, round);
    pair.read_same((dirty - 1) * PAGE, PAGE as usize);
    let name = &format!("write 100 bytes to the last dirty page, {dirty} dirty");
    times.print(&Row { name, runs, frames });
}

fn direct(runs: u64) {
    let frames = 1;
    let mut pair = Pair::open(PAGES, runs, frames, 0);
    let bytes = image::bytes(SMALL);
    let round = |side: &mut dyn Side| {
        let took = time(|| {
            for at in 0..DIRECT {
                side.write(at * PAGE, &bytes);
            }
        });
        [took]
    };
    let [times] = measure(&mut pair, DIRECT as u32, round);
    pair.is_same();
    let name = "write 100 bytes, direct";
    times.print(&Row { name, runs, frames });
}

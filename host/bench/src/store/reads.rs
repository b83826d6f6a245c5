//! Reads from an image of 256 pages: direct, and in an update.

use super::clock::{measure, time, Row};
use super::side::{make_dirty, Held, Pair, Side};
use super::{PAGE, RUNS, SMALL};
use std::hint::black_box;

const PAGES: u64 = 256;
const READS: u64 = 256;

/// Where reads are made: whether an update is open, how many pages it has made dirty, and the pages read in turn.
struct Place {
    name: &'static str,
    updating: bool,
    dirty: u64,
    first: u64,
    pages: u64,
}

const PLACES: [Place; 4] = [
    Place {
        name: "direct",
        updating: false,
        dirty: 0,
        first: 0,
        pages: PAGES,
    },
    Place {
        name: "in an update, in the clean cache",
        updating: true,
        dirty: 0,
        first: 0,
        pages: 1,
    },
    Place {
        name: "in an update, not in the cache",
        updating: true,
        dirty: 0,
        first: 0,
        pages: PAGES,
    },
    Place {
        name: "in an update, the last of 64 dirty pages",
        updating: true,
        dirty: 64,
        first: 63,
        pages: 1,
    },
];

/// Stores and loads of the same place in different memory pages are taken for one by many processors until both addresses are known whole.
const MEMORY_PAGE: usize = 4_096;

pub fn report() {
    for (len, of) in [(SMALL, "100 bytes"), (PAGE as usize, "a page")] {
        for place in &PLACES {
            for runs in RUNS {
                read(of, runs, len, place);
            }
        }
    }
    read_behind();
}

fn read(of: &str, runs: u64, len: usize, place: &Place) {
    let frames = place.dirty as usize;
    let mut pair = Pair::open(PAGES, runs, frames, 0);
    if place.updating {
        pair.both(|side| make_dirty(side, place.dirty));
    }
    let name = &format!("read {of}, {}", place.name);
    let row = Row { name, runs, frames };
    read_in_turn(&mut pair, &row, place, &mut vec![0; len]);
}

/// Direct, to a buffer that starts 4 bytes behind where the page is in memory, modulo 4,096.
fn read_behind() {
    let mut pair = Pair::open(PAGES, 0, 0, 0);
    let mut buffer = vec![0; PAGE as usize + MEMORY_PAGE];
    let memory = pair.library.memory().as_ptr() as usize;
    let start = (memory + 4).wrapping_sub(buffer.as_ptr() as usize) % MEMORY_PAGE;
    let row = Row {
        name: "read a page, direct, 4 bytes behind its place modulo 4,096",
        runs: 0,
        frames: 0,
    };
    let dst = &mut buffer[start..start + PAGE as usize];
    read_in_turn(&mut pair, &row, &PLACES[0], dst);
}

fn read_in_turn(pair: &mut Pair, row: &Row, place: &Place, dst: &mut [u8]) {
    pair.read_same(place.first * PAGE, dst.len());
    let round = |side: &mut dyn Side| {
        let took = time(|| {
            for at in 0..READS {
                let page = place.first + at % place.pages;
                side.read(page * PAGE, black_box(&mut *dst));
            }
        });
        [took]
    };
    let [times] = measure(pair, READS as u32, round);
    times.print(row);
}

//! Checksums and imports.

use super::clock::{measure, time, Row};
use super::side::{Pair, Side};
use super::{image, PAGE, RUNS};
use std::hint::black_box;

const MIB: usize = 1 << 20;
const CHECKSUM_PAGES: u64 = 4_096;
const REFRESH_PAGES: u64 = 256;
const STEP: u64 = 65_536;
const STEPS: u32 = (REFRESH_PAGES * PAGE / STEP) as u32;
const IMPORT: usize = 16 * MIB;
/// The image that is there before an import.
const IMAGE_PAGES: u64 = 4;

/// The runs of a sparse image: one behind all its data, and one behind each page of it.
const SPARSE_RUNS: [u64; 2] = [1, CHECKSUM_PAGES / 16];

pub fn report() {
    for runs in RUNS {
        let pair = Pair::open(CHECKSUM_PAGES, runs, 0, 0);
        checksum(pair, "checksum of 64 MiB", runs);
    }
    for runs in SPARSE_RUNS {
        let pair = Pair::sparse(CHECKSUM_PAGES, runs);
        checksum(pair, "checksum of 64 MiB, of which 4 MiB are data", runs);
    }
    RUNS.into_iter().for_each(refresh);
    import();
}

fn checksum(mut pair: Pair, name: &str, runs: u64) {
    let [sum, _] = pair.both(|side| side.checksum());
    let round = |side: &mut dyn Side| [time(|| assert_eq!(side.checksum(), sum))];
    let [times] = measure(&mut pair, 1, round);
    let frames = 0;
    times.print(&Row { name, runs, frames });
}

fn refresh(runs: u64) {
    let mut pair = Pair::open(REFRESH_PAGES, runs, 0, 0);
    let [sum, _] = pair.both(|side| side.checksum());
    let round = |side: &mut dyn Side| {
        let took = time(|| {
            let hashes = (0..STEPS).map(|_| side.refresh(STEP));
            assert_eq!(hashes.last(), Some(sum));
        });
        [took]
    };
    let [times] = measure(&mut pair, STEPS, round);
    pair.is_same();
    let name = "refresh step of 64 KiB";
    let frames = 0;
    times.print(&Row { name, runs, frames });
}

fn import() {
    let mut pair = Pair::open(IMAGE_PAGES, 0, 0, IMPORT);
    let bytes = image::bytes(IMPORT);
    let sum = oracle::fnv1a64(&bytes);
    let round = |side: &mut dyn Side| {
        side.reopen();
        let chunks = time(|| take(side, black_box(&bytes), sum));
        [chunks, chunks + time(|| side.finish_import())]
    };
    let [chunks, all]: [_; 2] = measure(&mut pair, 1, round);
    pair.is_same();
    let (runs, frames) = (0, 0);
    let name = "import of 16 MiB, begin and 16 chunks";
    chunks.print(&Row { name, runs, frames });
    let name = "import of 16 MiB with its finish";
    all.print(&Row { name, runs, frames });
}

fn take(side: &mut dyn Side, bytes: &[u8], sum: u64) {
    side.begin_import(bytes.len() as u64, sum);
    for (at, chunk) in bytes.chunks(MIB).enumerate() {
        side.import_chunk((at * MIB) as u64, chunk);
    }
}

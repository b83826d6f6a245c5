//! Memories to open: fresh ones, images with odd fields, full of runs or in an import, and ones that cannot be opened.

use super::place::near;
use crate::block::{self, Block, BASE, FLAGS, IMPORT, IMPORTING, REFRESH, SIZE, TX};
use crate::plan::{numbers, Run, MAX_RUNS, PAGE};
use crate::plan_case::far_runs;
use crate::prng::Prng;

const STABLE_PAGE: u64 = 65_536;

/// Memory, of which `count` stable pages are in use. Its whole stable pages are the ceiling.
#[derive(Clone)]
pub struct Made {
    pub memory: Vec<u8>,
    pub count: u64,
}

impl Made {
    pub fn ceiling(&self) -> u64 {
        self.memory.len() as u64 / STABLE_PAGE
    }

    pub fn any(seed: u64) -> Self {
        let mut prng = Prng::new(seed);
        let count = prng.pick(&[0, 0, 1, 1, 2, 2, 2, 3, 4, 5]);
        let ceiling = count + prng.pick(&[0, 1, 1, 2, 2, 3]);
        let tail = prng.pick(&[0, 0, 1, 100, STABLE_PAGE - 1]);
        let memory = prng.bytes((ceiling * STABLE_PAGE + tail) as usize);
        let mut made = Self { memory, count };
        if count > 0 {
            let block = made.block(&mut prng);
            let bytes = block.sealed();
            made.memory[..bytes.len()].copy_from_slice(&bytes);
        }
        if count > 0 && prng.below(30) == 0 {
            made.spoil(&mut prng);
        }
        made
    }

    fn block(&self, prng: &mut Prng) -> Block {
        let end = self.count * STABLE_PAGE;
        let base = (STABLE_PAGE + prng.pick(&[0, 0, 0, 1, 4_096, 12_345, 65_535])).min(end);
        let most = end - base;
        let size = match prng.below(5) {
            0 => most,
            1 => near(prng, most).min(most),
            2 => prng.below(most + 1),
            3 => 0,
            _ => {
                let page = prng.below(9);
                near(prng, page * PAGE).min(most)
            }
        };
        let runs = runs(prng, size / PAGE);
        let mut block = Block::any(prng, numbers(&runs));
        block.fields[SIZE] = size;
        block.fields[BASE] = base;
        block.fields[TX] = prng.pick(&[0, 5, u64::MAX, u64::MAX - 1]);
        // now and then with bits that no call sets
        let unknown = prng.pick(&[0, 0, 8, u64::MAX / 8 * 8]);
        block.fields[FLAGS] = unknown + prng.pick(&[0, 0, 0, 2, 4, 6, 1, 1, 3, 5, 7]);
        let tx = block.fields[TX];
        let reached = near(prng, size);
        block.fields[REFRESH.start] = prng.pick(&[0, size / 2, size, reached]);
        block.fields[REFRESH.start + 2] = prng.pick(&[tx, tx, tx / 2, 5]);
        self.import(prng, &mut block, end);
        block
    }

    /// An import that could go on or be finished, whether one is open or not.
    fn import(&self, prng: &mut Prng, block: &mut Block, end: u64) {
        let base = prng.pick(&[STABLE_PAGE, STABLE_PAGE + 77, end]).min(end);
        let reached = prng.below(end - base + 1);
        let written = prng.pick(&[0, reached, end - base]);
        let most = u64::MAX - base;
        let more = prng.pick(&[0, 1, 1_000, STABLE_PAGE, most - written]);
        let held = &self.memory[base as usize..(base + written) as usize];
        let sum = block::fnv1a64(held);
        let expected = prng.pick(&[sum, sum, 7]);
        block.fields[IMPORT].copy_from_slice(&[expected, written, written + more, base]);
    }

    /// So that it is refused by 1 to 4, mostly.
    fn spoil(&mut self, prng: &mut Prng) {
        let end = self.count * STABLE_PAGE;
        let fields: [(usize, &[u64]); 9] = [
            (block::MAGIC, &[0, u64::MAX]),
            (block::VERSION, &[0, 7, 9]),
            (block::LAYOUT, &[0, 7, 9, u64::MAX]),
            (block::COUNT, &[1_025, u64::MAX]),
            (SIZE, &[end, u64::MAX, end + 1, end - STABLE_PAGE + 1]),
            (BASE, &[0, STABLE_PAGE - 1, end, end + 1, u64::MAX]),
            (IMPORT.start + 1, &[end, end + 1, u64::MAX, 0]),
            (IMPORT.start + 2, &[0, end, u64::MAX]),
            (IMPORT.start + 3, &[0, STABLE_PAGE - 1, end + 1, u64::MAX]),
        ];
        match prng.below(10) {
            0 => self.memory[prng.below(170) as usize] ^= 1,
            1 => {
                let bytes = &mut self.memory[..block::BYTES];
                block::put(bytes, block::COUNT, 1);
                bytes[block::run_place(0)..block::run_place(1)].fill(0);
                block::seal(bytes);
            }
            _ => {
                let (field, values) = prng.pick(&fields);
                let bytes = &mut self.memory[..block::BYTES];
                block::put(bytes, field, prng.pick(values));
                if IMPORT.contains(&field) {
                    let flags = block::get(bytes, FLAGS);
                    block::put(bytes, FLAGS, flags | prng.pick(&[0, IMPORTING, IMPORTING]));
                }
                block::seal(bytes);
            }
        }
    }
}

/// Few runs, or as many as there may be, in a file of so many pages and past its end.
fn runs(prng: &mut Prng, pages: u64) -> Vec<Run> {
    let first = prng.below(5);
    let near = prng.pick(&[0, 0, 1, 2, 4]);
    let mut runs = far_runs(prng, first, near);
    match prng.below(12) {
        0 => {
            let more = MAX_RUNS - near - prng.pick(&[0, 0, 0, 1, 2]);
            let first = prng.pick(&[pages + 30, 10_000, u64::MAX - 6_000]);
            runs.extend(far_runs(prng, first, more));
        }
        1..=3 => runs.extend(far_runs(prng, pages + 40, 3)),
        _ => {}
    }
    runs
}

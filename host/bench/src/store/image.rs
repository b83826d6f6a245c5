//! Images to work on.

use super::PAGE;
use oracle::Superblock;

pub const DB_SIZE: usize = 3;
pub const PAGE_COUNT: usize = 17;
/// Past the end of every image here.
const FIRST_RUN: u64 = 1 << 20;

/// An image of so many pages, none of which is zeros. All its runs lie past its end: a page is known not to be zeros only
/// when every run was asked.
pub fn of(pages: u64, runs: u64) -> Vec<u8> {
    let run = |at| (FIRST_RUN + 2 * at, FIRST_RUN + 2 * at + 1);
    with_runs(pages, (0..runs).map(run).collect())
}

/// An image of which one page in 16 is data: as many stretches as runs, in each the data and behind it the run.
pub fn sparse(pages: u64, runs: u64) -> Vec<u8> {
    let stretch = pages / runs;
    let run = |at| (at * stretch + stretch / 16, (at + 1) * stretch);
    with_runs(pages, (0..runs).map(run).collect())
}

fn with_runs(pages: u64, runs: Vec<(u64, u64)>) -> Vec<u8> {
    let fresh = oracle::fresh();
    let mut fields = oracle::load(&fresh).expect("a superblock").fields;
    fields[DB_SIZE] = pages * PAGE;
    fields[PAGE_COUNT] = pages;
    let block = Superblock { fields, runs };
    let mut image = oracle::store(&fresh, &block).expect("normalized runs");
    image.extend(bytes((pages * PAGE) as usize));
    image
}

pub fn bytes(len: usize) -> Vec<u8> {
    (0..len).map(|at| (at * 31 + at / 251) as u8 | 1).collect()
}

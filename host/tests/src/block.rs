//! The layout of a superblock, written down once more, apart from the library's and the original's.

use crate::plan::Run;
use crate::prng::Prng;
use std::ops::Range;

pub const BYTES: usize = yuharopu::SUPERBLOCK_BYTES;
pub const FIELDS: usize = yuharopu::SUPERBLOCK_FIELDS;
pub const STABLE_PAGE: usize = 65_536;
pub const MAX_RUNS: u64 = 1_024;
pub const CURRENT: u64 = 8;

// The places of the numbers: magic, version and page size, then the eighteen 64-bit fields.
pub const MAGIC: usize = 0;
pub const VERSION: usize = 1;
pub const PAGE_SIZE: usize = 2;
pub const SIZE: usize = 3;
pub const SCHEMA: usize = 4;
pub const TX: usize = 5;
pub const FLAGS: usize = 6;
pub const SUM: usize = 7;
/// expected checksum, written, total, base
pub const IMPORT: Range<usize> = 8..12;
/// offset, hash, transaction number
pub const REFRESH: Range<usize> = 12..15;
pub const BASE: usize = 15;
pub const PAGE_TABLE: usize = 16;
pub const PAGE_COUNT: usize = 17;
pub const LAYOUT: usize = 18;
pub const COUNT: usize = 19;
pub const CHECKSUM: usize = 20;

// The flags.
pub const IMPORTING: u64 = 1;
pub const STALE: u64 = 2;
pub const REFRESHING: u64 = 4;

pub fn magic() -> u64 {
    u64::from_le_bytes(*b"ICSQLITE")
}

/// Where a field lies, and in how many bytes.
pub fn place(field: usize) -> (usize, usize) {
    match field {
        MAGIC => (0, 8),
        VERSION => (8, 4),
        PAGE_SIZE => (12, 4),
        _ => (16 + 8 * (field - 3), 8),
    }
}

/// Where a run lies, in 16 bytes; behind the fields.
pub fn run_place(run: usize) -> usize {
    place(FIELDS).0 + 16 * run
}

/// The bytes that are stored and hashed for this many runs.
pub fn prefix_len(runs: u64) -> usize {
    run_place(runs.min(MAX_RUNS) as usize)
}

pub fn fnv1a64(bytes: &[u8]) -> u64 {
    let step = |hash: u64, byte: &u8| (hash ^ u64::from(*byte)).wrapping_mul(0x100_0000_01b3);
    bytes.iter().fold(0xcbf2_9ce4_8422_2325, step)
}

/// A block's numbers; a run is two of them, start then end.
#[derive(Clone)]
pub struct Block {
    pub fields: [u64; FIELDS],
    pub runs: Vec<u64>,
}

impl Block {
    pub fn fresh() -> Self {
        let mut fields = [0; FIELDS];
        fields[MAGIC] = magic();
        fields[VERSION] = CURRENT;
        fields[PAGE_SIZE] = 16_384;
        fields[BASE] = 65_536;
        fields[LAYOUT] = CURRENT;
        let runs = Vec::new();
        Self { fields, runs }
    }

    /// Any fields that a block may have, with these runs.
    pub fn any(prng: &mut Prng, runs: Vec<u64>) -> Self {
        let mut fields = [0; FIELDS];
        fields.fill_with(|| prng.field());
        fields[MAGIC] = magic();
        fields[VERSION] = CURRENT;
        fields[LAYOUT] = CURRENT;
        fields[COUNT] = runs.len() as u64 / 2;
        Self { fields, runs }
    }

    /// The bytes, with the checksum field as it is.
    pub fn unsealed(&self) -> Vec<u8> {
        let mut bytes = vec![0; BYTES];
        for (field, number) in self.fields.iter().enumerate() {
            put(&mut bytes, field, *number);
        }
        for (place, number) in bytes[run_place(0)..].chunks_mut(8).zip(&self.runs) {
            place.copy_from_slice(&number.to_le_bytes());
        }
        bytes
    }

    /// The bytes, with the checksum that belongs to them.
    pub fn sealed(&self) -> Vec<u8> {
        let mut bytes = self.unsealed();
        seal(&mut bytes);
        bytes
    }
}

/// The number in a field's place.
pub fn get(bytes: &[u8], field: usize) -> u64 {
    let (offset, len) = place(field);
    let mut number = [0; 8];
    number[..len].copy_from_slice(&bytes[offset..offset + len]);
    u64::from_le_bytes(number)
}

/// As many runs as the block counts.
pub fn runs_in(bytes: &[u8]) -> Vec<Run> {
    let number = |at: usize| u64::from_le_bytes(bytes[at..at + 8].try_into().expect("8 bytes"));
    let places = (0..get(bytes, COUNT) as usize).map(run_place);
    places.map(|at| (number(at), number(at + 8))).collect()
}

pub fn put(bytes: &mut [u8], field: usize, number: u64) {
    let (offset, len) = place(field);
    bytes[offset..offset + len].copy_from_slice(&number.to_le_bytes()[..len]);
}

/// The checksum that belongs to the bytes, over this many of them.
pub fn checksum_over(bytes: &[u8], len: usize) -> u64 {
    let mut hashed = bytes.to_vec();
    put(&mut hashed, CHECKSUM, 0);
    fnv1a64(&hashed[..len])
}

pub fn seal(bytes: &mut [u8]) {
    let checksum = checksum_over(bytes, prefix_len(get(bytes, COUNT)));
    put(bytes, CHECKSUM, checksum);
}

/// The importing mark of the block in front of memory.
pub fn is_importing(memory: &[u8]) -> bool {
    get(memory, FLAGS) & IMPORTING != 0
}

/// Mark and import fields are cleared, the checksum is made anew; nothing else changes.
pub fn close_import(memory: &mut [u8]) {
    let flags = get(memory, FLAGS);
    put(memory, FLAGS, flags & !IMPORTING);
    IMPORT.for_each(|field| put(memory, field, 0));
    seal(&mut memory[..BYTES]);
}

/// A normalized list of this many runs, close together or far apart.
pub fn normalized_runs(prng: &mut Prng, count: u64) -> Vec<u64> {
    let widest = u64::MAX / (2 * count + 2);
    let step = prng.pick(&[1, 2, 1_000, widest]);
    let mut next = prng.below(step + 1);
    let mut runs = Vec::new();
    for _ in 0..2 * count {
        runs.push(next);
        next += 1 + prng.below(step);
    }
    runs
}

/// A number of runs: mostly few, now and then any that a block may have.
pub fn run_count(prng: &mut Prng) -> u64 {
    match prng.below(8) {
        0 => 0,
        1 => prng.below(MAX_RUNS + 1),
        2 => prng.pick(&[1, MAX_RUNS - 1, MAX_RUNS]),
        _ => prng.below(12),
    }
}

//! The original Rust behind functions on numbers and bytes.
//!
//! Its files are compiled unchanged, and only the modules that they lack have stand-ins. Where the files are not at
//! hand, `AVAILABLE` is false and every function here panics.

/// Whether the original's files were found when this crate was built.
pub const AVAILABLE: bool = cfg!(all(original, not(test)));

/// The 64-bit numbers of a superblock: magic, version, page size, then the eighteen fields by offset.
pub const FIELDS: usize = 21;

/// A superblock and its zero runs, each a start and an end page.
#[derive(Clone, Debug, Eq, PartialEq)]
pub struct Superblock {
    pub fields: [u64; FIELDS],
    pub runs: Vec<(u64, u64)>,
}

/// The number of a refusal and the values that callers are owed, zeros where there are none.
#[derive(Clone, Copy, Debug, Eq, PartialEq)]
pub struct Refusal {
    pub number: u64,
    pub values: [u64; 2],
}

/// What a step of the checksum's refresh answers.
#[derive(Clone, Copy, Debug, Eq, PartialEq)]
pub struct Refresh {
    pub complete: bool,
    pub checksum: u64,
    pub scanned_bytes: u64,
    pub db_size: u64,
}

/// The budget's numbers in an update.
#[derive(Clone, Copy, Debug, Eq, PartialEq)]
pub struct WriteStats {
    pub peak_pages: u64,
    pub peak_bytes: u64,
    pub exceeded: Option<Limit>,
}

/// The limit of a budget that was passed first.
#[derive(Clone, Copy, Debug, Eq, PartialEq)]
pub enum Limit {
    Pages,
    Bytes,
}

/// An update as it stands: its size, dirty pages in order of first touch, and record of zero runs.
#[derive(Clone, Debug, Eq, PartialEq)]
pub struct Draft {
    pub size: u64,
    pub dirty_pages: Vec<(u64, Vec<u8>)>,
    pub record: Vec<(u64, u64)>,
}

// Under its test configuration the original wants modules that are not among its files.
#[cfg(all(original, not(test)))]
include!(concat!(env!("OUT_DIR"), "/modules.rs"));
#[cfg(all(original, not(test)))]
mod present;
#[cfg(all(original, not(test)))]
pub use present::{fnv1a64, fresh, grow, grow_bytes, load, store, Store};

#[cfg(not(all(original, not(test))))]
mod absent;
#[cfg(not(all(original, not(test))))]
pub use absent::{fnv1a64, fresh, grow, grow_bytes, load, store, Store};

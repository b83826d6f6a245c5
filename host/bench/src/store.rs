//! The store's calls, on an image that both sides hold.

mod clock;
mod commits;
mod empty;
pub mod image;
mod reads;
mod side;
mod sums;
mod writes;

pub const RUNS: [u64; 2] = [0, 1_024];
const PAGE: u64 = 16_384;
const SMALL: usize = 100;

/// The groups of rows, by the names that choose them.
pub const GROUPS: [(&str, fn()); 5] = [
    ("empty", empty::report),
    ("reads", reads::report),
    ("writes", writes::report),
    ("commits", commits::report),
    ("sums", sums::report),
];

pub use clock::head;

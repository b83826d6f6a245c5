//! The original's functions, on numbers and bytes.

mod refusal;
pub mod stand_in;
mod store;
mod superblock;

pub use store::{grow, grow_bytes, Store};
pub use superblock::{fnv1a64, fresh, load, store};

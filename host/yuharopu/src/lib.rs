//! The store of `include/yuharopu.h` in safe Rust.
//!
//! A [`Store`] owns the buffers that the library is lent. [`raw`] has the same calls with any slices lent to each.
//!
//! ```
//! use yuharopu::{Error, Store};
//!
//! let mut store = Store::builder().ceiling(4).frames(8).create()?;
//! assert_eq!(store.begin_update(None), Ok(0));
//! store.write_at(16_384, b"x")?;
//! assert_eq!(store.file_size(), Ok(16_385));
//! store.commit_update()?;
//!
//! let mut byte = [9; 2];
//! assert_eq!(store.read_at(16_384, &mut byte), Ok(false));
//! assert_eq!(&byte, b"x\0");
//!
//! let refused = store.truncate(1 << 20).unwrap_err();
//! assert_eq!(refused, Error::GrowFailed { current: 2, required: 17 });
//! assert_eq!(refused.to_string(), "memory of 2 stable pages cannot grow to 17");
//!
//! let mut again = Store::builder().open(store.memory())?;
//! assert_eq!(again.checksum(), store.refresh_checksum());
//! # Ok::<(), Error>(())
//! ```

mod aligned;
mod builder;
mod error;
mod ffi;
mod store;

pub use aligned::Aligned;
pub use builder::Builder;
pub use error::Error;
pub use ffi::calls as raw;
pub use ffi::parts::*;
pub use store::{Budget, ChecksumRefresh, Store};

pub const SUPERBLOCK_BYTES: usize = 16_544;
pub const SUPERBLOCK_FIELDS: usize = 21;
pub const STATE_BYTES: usize = 336;
pub const ANSWER_NUMBERS: usize = 4;
pub const PAGE_BYTES: usize = 16_384;
pub const STABLE_PAGE_BYTES: usize = 65_536;
pub const CLEAN_BYTES: usize = 8 * PAGE_BYTES;

/// The numbers of a work list for so many frames.
pub const fn work_numbers(frames: usize) -> usize {
    2 * (1_025 + 2 * frames)
}

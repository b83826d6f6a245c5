//! How much a store is lent.

use crate::{Aligned, Error, Store, CLEAN_BYTES, PAGE_BYTES, STABLE_PAGE_BYTES, STATE_BYTES};

/// The buffers of a store, in numbers; they do not grow later.
#[derive(Clone, Copy, Debug)]
pub struct Builder {
    ceiling: usize,
    frames: usize,
    record_entries: usize,
}

impl Default for Builder {
    /// 64 stable pages of memory (4 MiB), 64 frames (1 MiB) and 64 entries of the record.
    fn default() -> Self {
        Self {
            ceiling: 64,
            frames: 64,
            record_entries: 64,
        }
    }
}

impl Builder {
    /// How many stable pages of 65,536 bytes memory may have.
    pub fn ceiling(mut self, stable_pages: usize) -> Self {
        self.ceiling = stable_pages;
        self
    }

    /// How many pages an update, or a direct call, may make dirty.
    pub fn frames(mut self, frames: usize) -> Self {
        self.frames = frames;
        self
    }

    /// How many changes of the page count an update may record.
    pub fn record_entries(mut self, entries: usize) -> Self {
        self.record_entries = entries;
        self
    }

    /// A fresh image.
    pub fn create(self) -> Result<Store, Error> {
        self.open(&[])
    }

    /// The image in these bytes, of which a last stable page that is not whole is filled up with zeros. The ceiling is at
    /// least what they take. An import that is open in them is cancelled: none is open in the store.
    pub fn open(self, image: &[u8]) -> Result<Store, Error> {
        let count = image.len().div_ceil(STABLE_PAGE_BYTES);
        let mut mem = Aligned::zeros(count.max(self.ceiling) * STABLE_PAGE_BYTES);
        mem[..image.len()].copy_from_slice(image);
        let mut store = Store {
            state: [0; STATE_BYTES],
            mem,
            frames: Aligned::zeros(self.frames * PAGE_BYTES),
            numbers: vec![0; self.frames],
            clean: Aligned::zeros(CLEAN_BYTES),
            record: vec![0; 2 * self.record_entries],
            work: vec![0; crate::work_numbers(self.frames)],
        };
        store.open(count as u64)?;
        Ok(store)
    }
}

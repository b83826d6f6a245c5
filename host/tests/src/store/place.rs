//! Offsets, sizes and lengths, mostly at the ends of pages, of the file and of memory.

use crate::plan::PAGE;
use crate::prng::Prng;

/// A number at a number or close by.
pub fn near(prng: &mut Prng, number: u64) -> u64 {
    let by = prng.pick(&[0, 0, 0, 1, 1, 2, PAGE / 2, PAGE - 1, PAGE, PAGE + 1]);
    if prng.below(2) == 0 {
        number.saturating_add(by)
    } else {
        number.saturating_sub(by)
    }
}

pub fn near_one(prng: &mut Prng, numbers: &[u64]) -> u64 {
    let number = prng.pick(numbers);
    near(prng, number)
}

/// What places are drawn by.
pub struct Around<'a> {
    pub size: u64,
    pub dirty: &'a [u64],
    /// The file's offsets at which memory in use and all of memory end.
    pub ends: [u64; 2],
    pub base: u64,
}

impl Around<'_> {
    /// An offset, or a size.
    pub fn place(&self, prng: &mut Prng) -> u64 {
        let size = self.size;
        match prng.below(20) {
            0 => prng.below(3),
            1..=4 => near(prng, size),
            5 if !self.dirty.is_empty() => {
                let page = prng.pick(self.dirty);
                near(prng, page * PAGE)
            }
            6 => u64::MAX - near_one(prng, &[0, PAGE, 2 * PAGE, 5 * PAGE]),
            7 => u64::MAX - near_one(prng, &[self.base, self.base + PAGE, self.base - 1]),
            8 => prng.below(size.max(1)),
            9 => size.saturating_add(prng.below(5 * PAGE)),
            10 => prng.below(9 * PAGE),
            11 if size > u64::MAX - 4 * PAGE => u64::MAX - prng.below(3 * PAGE),
            11 => near_one(prng, &[1 << 20, 1 << 32, 1 << 45, 1 << 62]),
            12..=13 => near_one(prng, &self.ends),
            _ => {
                let page = prng.below(9);
                near(prng, page * PAGE)
            }
        }
    }

    /// What is written: an offset and a length.
    pub fn written(&self, prng: &mut Prng) -> (u64, usize) {
        let offset = self.place(prng);
        match prng.below(6) {
            // a whole page
            0 => (offset / PAGE * PAGE, PAGE as usize),
            1 => (offset / PAGE * PAGE, length(prng)),
            // up to the size, or close to it
            2 if self.size > offset && self.size - offset < 3 * PAGE => {
                let len = near(prng, self.size - offset).min(4 * PAGE);
                (offset, len as usize)
            }
            _ => (offset, length(prng)),
        }
    }
}

pub fn length(prng: &mut Prng) -> usize {
    let page = PAGE as usize;
    match prng.below(12) {
        0 => 0,
        1..=2 => 1,
        3 => page,
        4 => 2 * page,
        5 => near_one(prng, &[PAGE, 2 * PAGE, 3 * PAGE]) as usize,
        6 => prng.below(3 * PAGE) as usize,
        _ => prng.below(200) as usize,
    }
}

//! What an update is lent beside memory.

use super::{Room, PAGE_LEN};
use crate::prng::Prng;
use std::sync::OnceLock;

#[derive(Clone, Eq, PartialEq)]
pub struct Buffers {
    pub frames: Vec<u8>,
    pub numbers: Vec<u64>,
    pub clean: Vec<u8>,
    pub record: Vec<u64>,
}

impl Buffers {
    /// Noise for so much room, of which one list may hold more than the other.
    pub fn noise(seed: u64, room: Room) -> Self {
        let mut prng = Prng::new(seed);
        let (more_bytes, more_numbers) =
            prng.pick(&[(0, 0), (0, 0), (PAGE_LEN / 2, 0), (0, 3), (PAGE_LEN, 0)]);
        let odd = prng.below(2) as usize;
        let mut buffers = Self {
            frames: vec![0; room.frames * PAGE_LEN + more_bytes],
            numbers: vec![0; room.frames + more_numbers],
            clean: vec![0; 8 * PAGE_LEN + 3 * odd],
            record: vec![0; 2 * room.entries + odd],
        };
        buffers.fill_with_noise(prng.number());
        buffers
    }

    /// Noise in every place, the same from the same seed.
    pub fn fill_with_noise(&mut self, seed: u64) {
        let mut prng = Prng::new(seed);
        let noise = noise();
        for bytes in [&mut self.frames, &mut self.clean] {
            for page in bytes.chunks_mut(PAGE_LEN) {
                let from = prng.below((noise.len() - PAGE_LEN) as u64) as usize;
                page.copy_from_slice(&noise[from..from + page.len()]);
            }
        }
        self.numbers.fill_with(|| prng.number());
        self.record.fill_with(|| prng.number());
    }

    /// The smaller count decides.
    pub fn room(&self) -> Room {
        Room {
            frames: self.numbers.len().min(self.frames.len() / PAGE_LEN),
            entries: self.record.len() / 2,
        }
    }

    /// The same with more behind each list, as of another lending in an update.
    pub fn longer(&self, more: &Buffers) -> Self {
        let numbers = |one: &[u64], other: &[u64]| [one, other].concat();
        Self {
            frames: [&self.frames[..], &more.frames].concat(),
            numbers: numbers(&self.numbers, &more.numbers),
            clean: self.clean.clone(),
            record: numbers(&self.record, &more.record),
        }
    }

    /// "whole, become zeros"
    pub fn wipe(&mut self) {
        self.frames.fill(0);
        self.numbers.fill(0);
        self.clean.fill(0);
        self.record.fill(0);
    }
}

/// A few pages to take noise from: buffers are filled before many calls, and to copy is cheaper than to draw.
fn noise() -> &'static [u8] {
    static NOISE: OnceLock<Vec<u8>> = OnceLock::new();
    NOISE.get_or_init(|| Prng::new(1).bytes(5 * PAGE_LEN))
}

/// The numbers of a work list for these buffers.
pub fn work_len(buffers: &Buffers) -> usize {
    yuharopu::work_numbers(buffers.room().frames)
}

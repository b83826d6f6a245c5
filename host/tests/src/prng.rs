//! The splitmix64 generator: the same numbers from the same seed, everywhere.

pub struct Prng(u64);

impl Prng {
    pub fn new(seed: u64) -> Self {
        Self(seed)
    }

    pub fn number(&mut self) -> u64 {
        self.0 = self.0.wrapping_add(0x9e37_79b9_7f4a_7c15);
        mix(self.0)
    }

    pub fn below(&mut self, bound: u64) -> u64 {
        self.number() % bound
    }

    pub fn pick<T: Copy>(&mut self, choices: &[T]) -> T {
        choices[self.below(choices.len() as u64) as usize]
    }

    pub fn fill(&mut self, bytes: &mut [u8]) {
        let mut parts = bytes.chunks_exact_mut(8);
        for part in &mut parts {
            part.copy_from_slice(&self.number().to_le_bytes());
        }
        let rest = parts.into_remainder();
        if !rest.is_empty() {
            rest.copy_from_slice(&self.number().to_le_bytes()[..rest.len()]);
        }
    }

    pub fn bytes(&mut self, len: usize) -> Vec<u8> {
        let mut bytes = vec![0; len];
        self.fill(&mut bytes);
        bytes
    }

    /// A number that is often at an end of its range.
    pub fn field(&mut self) -> u64 {
        match self.below(8) {
            0 => 0,
            1 => self.below(3),
            2 => u64::MAX - self.below(3),
            3 => 1 << self.below(64),
            4 => self.below(1 << 32),
            _ => self.number(),
        }
    }
}

/// The generator's last step, which spreads a difference in one bit over all of them.
pub fn mix(number: u64) -> u64 {
    let number = (number ^ (number >> 30)).wrapping_mul(0xbf58_476d_1ce4_e5b9);
    let number = (number ^ (number >> 27)).wrapping_mul(0x94d0_49bb_1331_11eb);
    number ^ (number >> 31)
}

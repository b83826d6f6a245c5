//! What a call answers.

use std::fmt;

/// The refusal's number, or 0; the values; and the bytes of a read, an export or a dirty page.
#[derive(Clone, Eq, PartialEq)]
pub struct Outcome {
    pub number: u64,
    pub values: [u64; 4],
    pub bytes: Vec<u8>,
}

/// A refusal's number and its values.
pub type Refused = (u64, [u64; 2]);

impl Outcome {
    pub fn accepted(values: [u64; 4]) -> Self {
        Self {
            number: 0,
            values,
            bytes: Vec::new(),
        }
    }

    /// With one value, the others zeros.
    pub fn value(value: u64) -> Self {
        Self::accepted([value, 0, 0, 0])
    }

    pub fn done() -> Self {
        Self::value(0)
    }

    pub fn with_bytes(value: u64, bytes: Vec<u8>) -> Self {
        let mut outcome = Self::value(value);
        outcome.bytes = bytes;
        outcome
    }

    pub fn refused((number, [first, second]): Refused) -> Self {
        Self {
            number,
            values: [first, second, 0, 0],
            bytes: Vec::new(),
        }
    }
}

impl fmt::Debug for Outcome {
    /// Without the bytes.
    fn fmt(&self, f: &mut fmt::Formatter<'_>) -> fmt::Result {
        write!(f, "{} {:?}", self.number, self.values)?;
        match self.bytes.len() {
            0 => Ok(()),
            len => write!(f, " with {len} bytes"),
        }
    }
}

//! What the library and the original answer to a case.

use crate::block::{FIELDS, STABLE_PAGE};
use crate::prng::mix;

pub enum Case {
    Load {
        block: Vec<u8>,
    },
    Store {
        memory: Vec<u8>,
        fields: [u64; FIELDS],
        runs: Vec<u64>,
    },
}

/// A verdict with its value, the fields shown, and memory afterwards.
#[derive(Clone, Debug, Eq, PartialEq)]
pub struct Answer {
    pub number: u64,
    pub value: u64,
    pub fields: [u64; FIELDS],
    pub memory: Vec<u8>,
}

/// An answer short enough to be kept.
#[derive(Clone, Copy, Debug, Eq, PartialEq)]
pub struct Summary {
    pub number: u64,
    pub value: u64,
    pub fields: u64,
    pub memory: u64,
}

const UNTOUCHED: u64 = 0x5a5a_5a5a_5a5a_5a5a;

impl Answer {
    pub fn of_library(case: &Case) -> Self {
        match case {
            Case::Load { block } => library_load(block),
            Case::Store {
                memory,
                fields,
                runs,
            } => {
                let mut memory = memory.clone();
                let number = yuharopu::superblock_store(&mut memory, fields, runs);
                Self {
                    number,
                    value: 0,
                    fields: [0; FIELDS],
                    memory,
                }
            }
        }
    }

    pub fn of_original(case: &Case) -> Self {
        match case {
            Case::Load { block } => original_load(block),
            Case::Store {
                memory,
                fields,
                runs,
            } => original_store(memory, fields, runs),
        }
    }

    pub fn summary(&self) -> Summary {
        let words = self.memory.chunks(8).map(|part| {
            let mut word = [0; 8];
            word[..part.len()].copy_from_slice(part);
            u64::from_le_bytes(word)
        });
        Summary {
            number: self.number,
            value: self.value,
            fields: digest(self.fields.iter().copied()),
            memory: digest(words),
        }
    }

    /// Says where two answers differ first.
    pub fn difference(&self, original: &Self) -> Option<String> {
        if (self.number, self.value) != (original.number, original.value) {
            return Some(format!(
                "answered {} ({}), the original {} ({})",
                self.number, self.value, original.number, original.value
            ));
        }
        let differs = |field: &usize| self.fields[*field] != original.fields[*field];
        if let Some(field) = (0..FIELDS).find(differs) {
            let (ours, theirs) = (self.fields[field], original.fields[field]);
            return Some(format!("field {field} is {ours}, the original's {theirs}"));
        }
        byte_difference(&self.memory, &original.memory)
    }
}

/// Says where two memories differ first.
pub fn byte_difference(ours: &[u8], theirs: &[u8]) -> Option<String> {
    if ours == theirs {
        return None;
    }
    let at = ours.iter().zip(theirs).position(|(a, b)| a != b);
    Some(format!(
        "memory of {} and {} bytes differs first at {at:?}",
        ours.len(),
        theirs.len()
    ))
}

fn library_load(block: &[u8]) -> Answer {
    let mut shown = [UNTOUCHED; FIELDS + 2];
    let number = yuharopu::superblock_load(block, &mut shown);
    let (fields, rest) = shown.split_at(FIELDS);
    assert_eq!(rest, [UNTOUCHED; 2], "places after the fields changed");
    Answer {
        number,
        value: if number == 2 { fields[0] } else { 0 },
        fields: fields.try_into().expect("as many places as fields"),
        memory: Vec::new(),
    }
}

fn original_load(block: &[u8]) -> Answer {
    let mut fields = [0; FIELDS];
    let (number, value) = match oracle::load(block) {
        Ok(loaded) => {
            fields = loaded.fields;
            (0, 0)
        }
        Err(refusal) => {
            fields[0] = refusal.values[0];
            (refusal.number, refusal.values[0])
        }
    };
    Answer {
        number,
        value,
        fields,
        memory: Vec::new(),
    }
}

fn original_store(memory: &[u8], fields: &[u64; FIELDS], runs: &[u64]) -> Answer {
    assert_eq!(memory.len() % STABLE_PAGE, 0, "whole stable pages");
    let used = &runs[..2 * fields[crate::block::COUNT] as usize];
    let block = oracle::Superblock {
        fields: *fields,
        runs: used.chunks(2).map(|run| (run[0], run[1])).collect(),
    };
    let (number, memory) = match oracle::store(memory, &block) {
        Ok(after) => (0, after),
        Err(refusal) => (refusal.number, memory.to_vec()),
    };
    Answer {
        number,
        value: 0,
        fields: [0; FIELDS],
        memory,
    }
}

/// A hash that is not the one under test.
fn digest(words: impl Iterator<Item = u64>) -> u64 {
    words.fold(0, |hash, word| mix(hash.rotate_left(5) ^ word) ^ hash)
}

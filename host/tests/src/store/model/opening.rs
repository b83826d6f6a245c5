//! Opening: 35, 32, then 1 to 4; then an import that is open is closed (02, W-202).

use super::{Model, Tried, STABLE_PAGE};
use crate::block::{self, Block, BASE, COUNT, FIELDS, FLAGS, IMPORT, IMPORTING, LAYOUT, SIZE};
use crate::plan::{is_normalized, Run};
use crate::store::outcome::Refused;
use crate::store::Buffers;

/// The numbers in the fields' places.
pub fn fields_in(memory: &[u8]) -> [u64; FIELDS] {
    std::array::from_fn(|field| block::get(memory, field))
}

/// The fields and the runs of the image in memory, untested.
pub fn fields_and_runs(memory: &[u8]) -> ([u64; FIELDS], Vec<Run>) {
    (fields_in(memory), block::runs_in(memory))
}

impl Model {
    pub fn open(memory: Vec<u8>, count: u64, buffers: Buffers) -> Result<Self, Refused> {
        let mut model = Self {
            memory,
            count,
            fields: [0; FIELDS],
            runs: Vec::new(),
            update: None,
            buffers,
            work: Vec::new(),
        };
        if (model.memory.len() as u64) / STABLE_PAGE < count {
            return Err((35, [0; 2]));
        }
        if count == 0 {
            model.grow(1)?;
            model.fields = Block::fresh().fields;
            model.store();
            return Ok(model);
        }
        let (fields, runs) = loaded(&model.memory)?;
        if is_outside(&fields, u128::from(count * STABLE_PAGE)) {
            return Err((4, [0; 2]));
        }
        model.fields = fields;
        model.runs = runs;
        if model.is_importing() {
            model.close_import();
        }
        Ok(model)
    }
}

fn loaded(memory: &[u8]) -> Tried<([u64; FIELDS], Vec<Run>)> {
    let fields = fields_in(memory);
    if fields[block::MAGIC] != block::magic() {
        return Err((1, [0; 2]));
    }
    for number in [fields[block::VERSION], fields[LAYOUT]] {
        if number != block::CURRENT {
            return Err((2, [number, 0]));
        }
    }
    if fields[COUNT] > block::MAX_RUNS {
        return Err((3, [0; 2]));
    }
    let runs = block::runs_in(memory);
    let hashed = &memory[..block::BYTES];
    let sum = block::checksum_over(hashed, block::prefix_len(fields[COUNT]));
    if sum != fields[block::CHECKSUM] || !is_normalized(&runs) {
        return Err((3, [0; 2]));
    }
    Ok((fields, runs))
}

/// 4, of memory of so many bytes.
fn is_outside(fields: &[u64; FIELDS], end: u128) -> bool {
    let sum = |a: u64, b: u64| u128::from(a) + u128::from(b);
    let below = |base: u64, len: u64| base < STABLE_PAGE || sum(base, len) > end;
    if below(fields[BASE], fields[SIZE]) {
        return true;
    }
    let [_, written, total, base] = fields[IMPORT].try_into().expect("four fields");
    fields[FLAGS] & IMPORTING != 0
        && (below(base, written) || written > total || sum(base, total) > u128::from(u64::MAX))
}

//! The library with all that its calls are lent.

use super::act::Cut;
use super::{Buffers, Call, Outcome};
use yuharopu::raw::{self, Lent};

pub const NOISE: u8 = 0x3c;
const NUMBER_NOISE: u64 = 0x3c3c_3c3c_3c3c;
pub const TOO_SHORT: u64 = 35;
/// By which an import bars a direct call.
const IMPORTING: u64 = 10;
/// Behind the bytes of an export or a dirty page, which stay.
const BEHIND: usize = 5;

#[derive(Clone, PartialEq)]
pub struct Library {
    pub state: Vec<u8>,
    pub memory: Vec<u8>,
    pub buffers: Buffers,
    pub work: Vec<u64>,
}

/// What a call left in the slices that are not kept.
pub struct Seen {
    pub number: u64,
    pub answer: Vec<u64>,
    pub dst: Vec<u8>,
    /// Whether the state is as it was, with what is behind it.
    pub same_state: bool,
}

impl Library {
    /// The state after an opening, and its answer.
    pub fn open(memory: Vec<u8>, count: u64, buffers: Buffers) -> (Self, Outcome) {
        let work = vec![0; super::buffers::work_len(&buffers)];
        let mut library = Self {
            state: vec![NOISE; yuharopu::STATE_BYTES],
            memory,
            buffers,
            work,
        };
        let mut answer = [NUMBER_NOISE; 4];
        let Self { state, memory, .. } = &mut library;
        let number = raw::open(state, memory, count, &mut answer);
        let values = answer;
        let bytes = Vec::new();
        (
            library,
            Outcome {
                number,
                values,
                bytes,
            },
        )
    }

    /// The 42 numbers of the state.
    pub fn numbers(&self) -> Vec<u64> {
        let number = |bytes: &[u8]| u64::from_le_bytes(bytes.try_into().expect("eight bytes"));
        self.state.chunks_exact(8).map(number).collect()
    }

    /// Lends other buffers from now on.
    pub fn lend(&mut self, buffers: Buffers) {
        self.work = vec![0; super::buffers::work_len(&buffers)];
        self.buffers = buffers;
    }

    /// The call with noise in the work list, which it leaves, or makes zeros. What it leaves in the state, memory and buffers
    /// is for the caller to compare.
    pub fn call(&mut self, call: &Call) -> Result<Outcome, String> {
        self.work = work_noise(self.work.len());
        let dst = vec![NOISE; shown(call)];
        let seen = self.with(call, None, vec![NUMBER_NOISE; 5], dst);
        let barred = call.is_change() && seen.number == IMPORTING;
        let work = if uses_work(call) && !barred {
            vec![0; self.work.len()]
        } else {
            work_noise(self.work.len())
        };
        if self.work != work {
            return Err("the work list".into());
        }
        if seen.answer[4] != NUMBER_NOISE {
            return Err("behind the answer".into());
        }
        let values: [u64; 4] = seen.answer[..4].try_into().expect("four places");
        let mut bytes = seen.dst;
        let behind = bytes.split_off(written(call, seen.number, values[0]).min(bytes.len()));
        if behind.iter().any(|byte| *byte != NOISE) {
            return Err("behind the bytes".into());
        }
        Ok(Outcome {
            number: seen.number,
            values,
            bytes,
        })
    }

    /// The call with one slice cut: 35, and that neither answer, bytes nor work list changed. The rest is for the caller
    /// to compare.
    pub fn refuses(&mut self, call: &Call, cut: Cut) -> Result<(), String> {
        self.work = work_noise(self.work.len());
        let dst = vec![NOISE; shown(call)];
        let answer = vec![NUMBER_NOISE; if let Cut::Answer(len) = cut { len } else { 4 }];
        let seen = self.with(call, Some(cut), answer, dst);
        if seen.number != TOO_SHORT {
            return Err(format!("{} for {cut:?}", seen.number));
        }
        let same = seen.answer.iter().all(|number| *number == NUMBER_NOISE)
            && self.work == work_noise(self.work.len());
        if !same || !seen.same_state || seen.dst.iter().any(|byte| *byte != NOISE) {
            return Err(format!("changed by 35 for {cut:?}"));
        }
        Ok(())
    }

    fn with(
        &mut self,
        call: &Call,
        cut: Option<Cut>,
        mut answer: Vec<u64>,
        mut dst: Vec<u8>,
    ) -> Seen {
        let state_len = cut.and_then(Cut::of_state).unwrap_or(self.state.len());
        let mut longer = self.state.clone();
        longer.resize(state_len.max(self.state.len()), NOISE);
        let before = longer.clone();
        let state = &mut longer[..state_len];
        let buffers = &mut self.buffers;
        let mut lent = Lent {
            mem: front(&mut self.memory, cut.and_then(Cut::of_memory)),
            frames: front(&mut buffers.frames, cut.and_then(Cut::of_frames)),
            numbers: front(&mut buffers.numbers, cut.and_then(Cut::of_numbers)),
            clean: front(&mut buffers.clean, cut.and_then(Cut::of_clean)),
            record: front(&mut buffers.record, cut.and_then(Cut::of_record)),
            work: front(&mut self.work, cut.and_then(Cut::of_work)),
        };
        let number = ask(call, state, &mut lent, &mut dst, &mut answer);
        let same_state = longer == before;
        longer.truncate(self.state.len());
        self.state = longer;
        Seen {
            number,
            answer,
            dst,
            same_state,
        }
    }
}

/// What a work list holds before each call: another number in each place.
pub fn work_noise(len: usize) -> Vec<u64> {
    (NUMBER_NOISE..).take(len).collect()
}

/// So many elements, or all.
fn front<T>(whole: &mut [T], len: Option<usize>) -> &mut [T] {
    let len = len.unwrap_or(whole.len());
    &mut whole[..len]
}

fn uses_work(call: &Call) -> bool {
    matches!(
        call,
        Call::WriteAt { .. } | Call::Truncate(_) | Call::CommitUpdate
    )
}

/// The bytes of a buffer for what the call shows.
fn shown(call: &Call) -> usize {
    match call {
        Call::ReadAt { len, .. } => *len,
        Call::ExportChunk { len, .. } => *len,
        Call::DirtyPage(_) => super::PAGE_LEN + BEHIND,
        _ => 0,
    }
}

/// How many of them it wrote, going by its answer.
fn written(call: &Call, number: u64, value: u64) -> usize {
    match call {
        Call::ReadAt { len, .. } if number == 0 => *len,
        Call::ExportChunk { .. } | Call::DirtyPage(_) if number == 0 => value as usize,
        _ => 0,
    }
}

/// The call with these slices.
pub fn ask(
    call: &Call,
    state: &mut [u8],
    lent: &mut Lent,
    dst: &mut [u8],
    answer: &mut [u64],
) -> u64 {
    match call {
        Call::BeginUpdate(budget) => {
            let (pages, bytes) = budget.unwrap_or((7, 7));
            // any number but 0 says that there is a budget
            let limited = budget.map_or(0, |(pages, _)| 1 + pages % 3);
            raw::begin_update(state, limited, pages, bytes, answer)
        }
        Call::FileSize => raw::file_size(state, answer),
        Call::ReadAt { offset, .. } => raw::read_at(state, lent, *offset, dst, answer),
        Call::WriteAt { offset, bytes } => {
            raw::write_at(state, lent, *offset, &bytes.make(), answer)
        }
        Call::Truncate(size) => raw::truncate(state, lent, *size, answer),
        Call::CommitUpdate => raw::commit_update(state, lent, answer),
        Call::RollbackUpdate => raw::rollback_update(state, lent, answer),
        Call::BeginImport { total, expected } => {
            raw::begin_import(state, lent.mem, *total, *expected, answer)
        }
        Call::ImportChunk { offset, bytes } => {
            raw::import_chunk(state, lent.mem, *offset, &bytes.make(), answer)
        }
        Call::FinishImport => raw::finish_import(state, lent.mem, answer),
        Call::CancelImport => raw::cancel_import(state, lent.mem, answer),
        Call::ExportChunk { offset, .. } => {
            raw::export_chunk(state, lent.mem, *offset, dst, answer)
        }
        Call::Checksum => raw::checksum(state, lent.mem, answer),
        Call::RefreshChecksum => raw::refresh_checksum(state, lent.mem, answer),
        Call::RefreshChecksumChunk(n) => raw::refresh_checksum_chunk(state, lent.mem, *n, answer),
        Call::DirtyPage(page) => {
            raw::dirty_page(state, lent.frames, lent.numbers, *page, dst, answer)
        }
    }
}

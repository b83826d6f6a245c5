//! What a list has: calls, other buffers lent, and calls with a slice that is too short.

use super::{Call, Room, PAGE_LEN};

#[derive(Clone, Copy, Debug, Eq, PartialEq)]
pub enum Act {
    Call(Call),
    /// Other buffers, or longer ones in an update.
    Lend {
        seed: u64,
        room: Room,
    },
    /// The image is opened again; left out in an update.
    Reopen,
    /// Left out where the slice would do.
    Short {
        call: Call,
        cut: Cut,
    },
}

/// A slice of another length.
#[derive(Clone, Copy, Debug, Eq, PartialEq)]
pub enum Cut {
    State(usize),
    Answer(usize),
    Memory(usize),
    Frames(usize),
    Numbers(usize),
    Clean(usize),
    Record(usize),
    Work(usize),
}

macro_rules! length {
    ($($name:ident $variant:ident,)*) => {
        impl Cut {
            $(pub fn $name(self) -> Option<usize> {
                match self {
                    Cut::$variant(len) => Some(len),
                    _ => None,
                }
            })*
        }
    };
}

length! {
    of_state State,
    of_memory Memory,
    of_frames Frames,
    of_numbers Numbers,
    of_clean Clean,
    of_record Record,
    of_work Work,
}

/// What the tests of 35 go by.
#[derive(Clone, Copy, Debug)]
pub struct Needs {
    pub count: u64,
    pub updating: bool,
    pub dirty: usize,
    pub recorded: usize,
    /// The whole pages and the page numbers that are lent.
    pub frames: (usize, usize),
}

impl Cut {
    /// "(added, tested first everywhere, of what the call is lent)"
    pub fn is_short(self, call: &Call, needs: &Needs) -> bool {
        let lent = lent_to(call);
        let (pages, numbers) = needs.frames;
        match self {
            Cut::State(len) => len != yuharopu::STATE_BYTES,
            Cut::Answer(len) => len < yuharopu::ANSWER_NUMBERS,
            Cut::Memory(len) => lent.memory && ((len / 65_536) as u64) < needs.count,
            Cut::Frames(len) => lent.frames && needs.updating && len / PAGE_LEN < needs.dirty,
            Cut::Numbers(len) => lent.frames && needs.updating && len < needs.dirty,
            Cut::Clean(len) => lent.buffers && len < 8 * PAGE_LEN,
            Cut::Record(len) => lent.buffers && needs.updating && len / 2 < needs.recorded,
            Cut::Work(len) => lent.work && len / 2 < 1_025 + 2 * pages.min(numbers),
        }
    }
}

struct LentTo {
    memory: bool,
    /// With their page numbers.
    frames: bool,
    /// Clean frames and record.
    buffers: bool,
    work: bool,
}

fn lent_to(call: &Call) -> LentTo {
    let (memory, frames, buffers, work) = match call {
        Call::BeginUpdate(_) | Call::FileSize => (false, false, false, false),
        Call::DirtyPage(_) => (false, true, false, false),
        Call::ReadAt { .. } => (true, true, true, false),
        Call::WriteAt { .. } | Call::Truncate(_) | Call::CommitUpdate => (true, true, true, true),
        Call::RollbackUpdate => (false, true, true, false),
        _ => (true, false, false, false),
    };
    LentTo {
        memory,
        frames,
        buffers,
        work,
    }
}

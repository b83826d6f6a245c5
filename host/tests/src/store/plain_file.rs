//! "The plain file" of document 01: size, bytes, base and zero runs; in an update a draft. It is fed each call and its
//! answer, and says what reads give and when a commit is refused.

mod draft;
mod pages;

use super::update::View;
use super::{Call, Outcome};
use crate::block::{self, BASE, SIZE};
use crate::plan::{Run, PAGE};
use draft::Draft;
use pages::Pages;

#[derive(PartialEq)]
pub struct PlainFile {
    size: u64,
    pages: Pages,
    base: u64,
    runs: Vec<Run>,
    draft: Option<Draft>,
}

type Held = Result<(), String>;

/// A finish that is refused so closes the import, "the rest unchanged".
const CLOSED: u64 = 24;

fn hold(holds: bool, what: impl FnOnce() -> String) -> Held {
    if holds {
        Ok(())
    } else {
        Err(what())
    }
}

impl PlainFile {
    /// "Opening and accepted import calls set it to the image in the memory they leave."
    pub fn in_memory(memory: &[u8]) -> Self {
        let (size, base) = (block::get(memory, SIZE), block::get(memory, BASE));
        let runs = block::runs_in(memory);
        let image = View {
            size,
            base,
            runs: &runs,
            memory,
        };
        let pages = Pages::of((0..size.div_ceil(PAGE)).map(|page| image.page(page)));
        Self {
            size,
            pages,
            base,
            runs,
            draft: None,
        }
    }

    /// A call that was not answered 35, its answer, and memory as it left it.
    pub fn feed(&mut self, call: &Call, outcome: &Outcome, memory: &[u8]) -> Held {
        let accepted = outcome.number == 0;
        match call {
            Call::BeginUpdate(_) if accepted => {
                self.draft = Some(Draft::of(self.size, &self.pages));
                hold(outcome.values[0] == self.size, || "begin's size".into())
            }
            Call::FileSize => self.sized(outcome),
            Call::ReadAt { offset, .. } => self.read(*offset, outcome),
            Call::ExportChunk { offset, .. } if accepted => {
                let bytes = self.pages.read(self.size, *offset, outcome.bytes.len());
                hold(bytes == outcome.bytes, || "exported bytes".into())
            }
            Call::WriteAt { offset, bytes } => {
                let bytes = bytes.make();
                self.change(accepted, memory, |draft| draft.write(*offset, &bytes))
            }
            Call::Truncate(size) => self.change(accepted, memory, |draft| draft.truncate(*size)),
            Call::CommitUpdate => self.commit(outcome, memory),
            Call::RollbackUpdate => {
                self.draft = None;
                hold(accepted, || "a refused rollback".into())
            }
            Call::BeginImport { .. } | Call::ImportChunk { .. } | Call::CancelImport
                if accepted =>
            {
                self.stays(memory)
            }
            Call::FinishImport if accepted => {
                *self = Self::in_memory(memory);
                Ok(())
            }
            Call::FinishImport if outcome.number == CLOSED => self.stays(memory),
            _ => Ok(()),
        }
    }

    /// "accepted import calls set it to the image in the memory they leave": to the file that it is, unless the import is
    /// finished, since its bytes lie past the image's and nothing else is written while it is open (02, W-202 and W-203).
    fn stays(&self, memory: &[u8]) -> Held {
        hold(*self == Self::in_memory(memory), || {
            "the file in an import".into()
        })
    }

    fn sized(&self, outcome: &Outcome) -> Held {
        let size = match &self.draft {
            Some(draft) if draft.spoiled => return Ok(()),
            Some(draft) => draft.size,
            None => self.size,
        };
        hold(outcome.values[0] == size, || format!("size, not {size}"))
    }

    /// "A read asks the draft, or else the file."
    fn read(&self, offset: u64, outcome: &Outcome) -> Held {
        let (size, pages) = match &self.draft {
            Some(draft) if draft.spoiled => return Ok(()),
            Some(draft) => (draft.size, &draft.pages),
            None => (self.size, &self.pages),
        };
        let len = outcome.bytes.len();
        let full = len == 0 || u128::from(offset) + len as u128 <= u128::from(size);
        hold(outcome.values[0] == u64::from(full), || "read full".into())?;
        let bytes = pages.read(size, offset, len);
        hold(bytes == outcome.bytes, || "bytes read".into())
    }

    /// "A write or truncation refused in an update spoils it".
    fn change(&mut self, accepted: bool, memory: &[u8], change: impl FnOnce(&mut Draft)) -> Held {
        if let Some(draft) = &mut self.draft {
            if accepted && !draft.spoiled {
                change(draft);
            }
            draft.spoiled |= !accepted;
            return Ok(());
        }
        if !accepted {
            return Ok(());
        }
        let mut draft = Draft::of(self.size, &self.pages);
        change(&mut draft);
        let number = self.settle(draft, memory.len() as u64);
        hold(number == 0, || format!("accepted, not {number}"))
    }

    fn commit(&mut self, outcome: &Outcome, memory: &[u8]) -> Held {
        let Some(draft) = self.draft.take() else {
            return hold(outcome.number == 0, || "a commit of nothing".into());
        };
        if !draft.spoiled {
            let number = self.settle(draft, memory.len() as u64);
            return hold(outcome.number == number, || format!("commit, not {number}"));
        }
        if outcome.number == 0 {
            *self = Self::in_memory(memory);
        }
        hold([0, 20, 31, 32].contains(&outcome.number), || {
            "commit".into()
        })
    }

    /// The commit of a draft, which becomes the file where it is accepted.
    fn settle(&mut self, draft: Draft, memory_len: u64) -> u64 {
        match draft.committed(self.size, self.base, &self.runs, memory_len) {
            Err(number) => number,
            Ok(runs) => {
                self.size = draft.size;
                self.pages = draft.pages;
                self.runs = runs;
                0
            }
        }
    }
}

//! The original, asked as the library is.

use super::{Call, Outcome};
use crate::block;
use oracle::{Draft, Limit, Refusal, Store};

pub struct Original {
    store: Store,
    updating: bool,
}

fn refused(refusal: Refusal) -> Outcome {
    Outcome::refused((refusal.number, refusal.values))
}

fn of<T>(answer: Result<T, Refusal>, show: impl FnOnce(T) -> Outcome) -> Outcome {
    answer.map_or_else(refused, show)
}

impl Original {
    /// These bytes are the stable pages in use. An import that is open in them is cancelled once they are accepted, as 02,
    /// W-202, says of this side.
    pub fn open(bytes: &[u8], ceiling: u64) -> Result<Self, Outcome> {
        let count = bytes.len() as u64 / 65_536;
        let mut store = Store::open(bytes, count, ceiling).map_err(refused)?;
        if count > 0 && block::is_importing(bytes) {
            store.cancel_import().map_err(refused)?;
        }
        Ok(Self {
            store,
            updating: false,
        })
    }

    pub fn call(&mut self, call: &Call) -> Outcome {
        let store = &mut self.store;
        let done = |()| Outcome::done();
        match call {
            Call::BeginUpdate(budget) => {
                let answer = store.begin_update();
                if let (Ok(_), Some((pages, bytes))) = (&answer, budget) {
                    store.set_write_budget(*pages, *bytes);
                }
                self.updating |= answer.is_ok();
                of(answer, Outcome::value)
            }
            Call::FileSize => of(store.file_size(), Outcome::value),
            Call::ReadAt { offset, len } => {
                let mut bytes = vec![0xa5; *len];
                let answer = store.read_at(*offset, &mut bytes);
                of(answer, |full| Outcome::with_bytes(u64::from(full), bytes))
            }
            Call::WriteAt { offset, bytes } => of(store.write_at(*offset, &bytes.make()), done),
            Call::Truncate(size) => of(store.truncate(*size), done),
            Call::CommitUpdate => {
                self.updating = false;
                of(store.commit_update(), done)
            }
            Call::RollbackUpdate => {
                self.updating = false;
                store.rollback_update();
                Outcome::done()
            }
            Call::BeginImport { total, expected } => {
                of(store.begin_import(*total, *expected), done)
            }
            Call::ImportChunk { offset, bytes } => {
                of(store.import_chunk(*offset, &bytes.make()), done)
            }
            Call::FinishImport => of(store.finish_import(), done),
            Call::CancelImport => of(store.cancel_import(), done),
            Call::ExportChunk { offset, len } => {
                let show = |bytes: Vec<u8>| Outcome::with_bytes(bytes.len() as u64, bytes);
                of(store.export_chunk(*offset, *len as u64), show)
            }
            Call::Checksum => of(store.checksum(), Outcome::value),
            Call::RefreshChecksum => of(store.refresh_checksum(), Outcome::value),
            Call::RefreshChecksumChunk(n) => of(store.refresh_checksum_chunk(*n), |step| {
                let complete = u64::from(step.complete);
                Outcome::accepted([complete, step.checksum, step.scanned_bytes, step.db_size])
            }),
            Call::DirtyPage(_) => unreachable!("the original has no such call"),
        }
    }

    /// The budget's numbers in the open update: passed, peak pages, peak bytes; and how many pages are dirty.
    pub fn stats(&mut self) -> Option<([u64; 3], u64)> {
        if !self.updating {
            return None;
        }
        let stats = self.store.write_stats();
        let passed = match stats.exceeded {
            None => 0,
            Some(Limit::Pages) => 1,
            Some(Limit::Bytes) => 2,
        };
        let dirty = self.store.dirty_page_count();
        Some(([passed, stats.peak_pages, stats.peak_bytes], dirty))
    }

    /// Gives the update up, and shows what it held.
    pub fn take_draft(&mut self) -> Option<Draft> {
        self.updating = false;
        self.store.take_draft()
    }

    pub fn count(&self) -> u64 {
        self.store.count()
    }

    pub fn difference(&self, bytes: &[u8]) -> Option<usize> {
        self.store.difference(bytes)
    }

    pub fn memory(&self) -> Vec<u8> {
        self.store.snapshot()
    }
}

//! The whole store of the original, on a memory of its own.

use super::refusal::{at_begin, elsewhere};
use super::superblock::{pairs, to_numbers};
use crate::sqlite_vfs::{overlay, stable_blob};
use crate::stable::memory::{self, ContextId, StableMemoryError};
use crate::stable::memory_manager::VirtualMemory;
use crate::stable::meta;
use crate::stable::raw_memory::{DefaultMemoryImpl, Memory};
use crate::{config, Draft, Limit, Refresh, Refusal, Superblock, WriteStats};

/// A context of the original's thread; it leaves the thread with the value.
pub struct Store {
    context: ContextId,
    memory: DefaultMemoryImpl,
}

impl Store {
    /// Opens a memory of `count` stable pages that starts with `bytes` and grows to `ceiling` at most.
    pub fn open(bytes: &[u8], count: u64, ceiling: u64) -> Result<Self, Refusal> {
        let mut store = Self::unopened(bytes, count, ceiling);
        store.superblock()?;
        Ok(store)
    }

    pub(crate) fn unopened(bytes: &[u8], count: u64, ceiling: u64) -> Self {
        let memory = DefaultMemoryImpl::holding(bytes, count, ceiling);
        let context = memory::init_context(VirtualMemory::over(memory.clone()))
            .expect("a memory of its own registers");
        Self { context, memory }
    }

    pub(crate) fn within<T>(&mut self, call: impl FnOnce() -> T) -> T {
        memory::with_context(self.context, call)
    }

    fn call<T>(
        &mut self,
        call: impl FnOnce() -> Result<T, StableMemoryError>,
    ) -> Result<T, Refusal> {
        self.within(call).map_err(elsewhere)
    }

    pub fn superblock(&mut self) -> Result<Superblock, Refusal> {
        self.call(meta::Superblock::load)
            .map(|block| to_numbers(&block))
    }

    /// The stable pages that memory has.
    pub fn count(&self) -> u64 {
        self.memory.size()
    }

    /// All bytes of memory.
    pub fn snapshot(&self) -> Vec<u8> {
        let len = usize::try_from(self.count() * config::STABLE_PAGE_SIZE).expect("a length");
        let mut bytes = vec![0; len];
        self.memory.read(0, &mut bytes);
        bytes
    }

    /// The first place where memory is not these bytes, which are all of it.
    pub fn difference(&self, bytes: &[u8]) -> Option<usize> {
        self.memory.difference(bytes)
    }

    pub fn begin_update(&mut self) -> Result<u64, Refusal> {
        self.within(stable_blob::begin_update).map_err(at_begin)
    }

    /// Only an open update has a budget.
    pub fn set_write_budget(&mut self, max_pages: u64, max_bytes: u64) {
        self.within(|| overlay::set_write_budget(max_pages, max_bytes));
    }

    pub fn write_stats(&mut self) -> WriteStats {
        let stats = self.within(overlay::write_stats);
        let limit = |by_bytes| if by_bytes { Limit::Bytes } else { Limit::Pages };
        WriteStats {
            peak_pages: stats.dirty_pages,
            peak_bytes: stats.peak_bytes,
            exceeded: stats.exceeded.map(limit),
        }
    }

    pub fn dirty_page_count(&mut self) -> u64 {
        self.within(overlay::dirty_page_count)
    }

    /// Ends the update without a commit and shows what it held; the original has no other way to look at it.
    pub fn take_draft(&mut self) -> Option<Draft> {
        let overlay = self.within(overlay::take)?;
        Some(Draft {
            size: overlay.size(),
            dirty_pages: overlay.dirty_pages().to_vec(),
            record: pairs(overlay.zero_extents()),
        })
    }

    /// Whether the read was full.
    pub fn read_at(&mut self, offset: u64, dst: &mut [u8]) -> Result<bool, Refusal> {
        self.call(|| stable_blob::read_at(offset, dst))
    }

    pub fn write_at(&mut self, offset: u64, bytes: &[u8]) -> Result<(), Refusal> {
        self.call(|| stable_blob::write_at(offset, bytes))
    }

    pub fn truncate(&mut self, size: u64) -> Result<(), Refusal> {
        self.call(|| stable_blob::truncate(size))
    }

    pub fn commit_update(&mut self) -> Result<(), Refusal> {
        self.call(stable_blob::commit_update)
    }

    pub fn rollback_update(&mut self) {
        self.within(stable_blob::rollback_update);
    }

    pub fn file_size(&mut self) -> Result<u64, Refusal> {
        self.call(stable_blob::file_size)
    }

    pub fn begin_import(&mut self, total_size: u64, checksum: u64) -> Result<(), Refusal> {
        self.call(|| stable_blob::begin_import(total_size, checksum))
    }

    pub fn import_chunk(&mut self, offset: u64, bytes: &[u8]) -> Result<(), Refusal> {
        self.call(|| stable_blob::import_chunk(offset, bytes))
    }

    pub fn finish_import(&mut self) -> Result<(), Refusal> {
        self.call(stable_blob::finish_import)
    }

    pub fn cancel_import(&mut self) -> Result<(), Refusal> {
        self.call(stable_blob::cancel_import)
    }

    pub fn export_chunk(&mut self, offset: u64, len: u64) -> Result<Vec<u8>, Refusal> {
        self.call(|| stable_blob::export_chunk(offset, len))
    }

    pub fn checksum(&mut self) -> Result<u64, Refusal> {
        self.call(stable_blob::checksum)
    }

    pub fn refresh_checksum(&mut self) -> Result<u64, Refusal> {
        self.call(stable_blob::refresh_checksum)
    }

    pub fn refresh_checksum_chunk(&mut self, max_bytes: u64) -> Result<Refresh, Refusal> {
        let step = self.call(|| stable_blob::refresh_checksum_chunk(max_bytes))?;
        Ok(Refresh {
            complete: step.complete,
            checksum: step.checksum,
            scanned_bytes: step.scanned_bytes,
            db_size: step.db_size,
        })
    }
}

impl Drop for Store {
    /// The original keeps an update apart from its memory, and drops neither by itself.
    fn drop(&mut self) {
        self.rollback_update();
        memory::clear_failed_initialization(self.context);
    }
}

/// The stable pages after memory of `count` of them was asked to reach `end`.
pub fn grow(ceiling: u64, count: u64, end: u64) -> Result<u64, Refusal> {
    let mut store = Store::unopened(&[], count, ceiling);
    store.call(|| memory::ensure_capacity(end))?;
    Ok(store.count())
}

/// The same for a memory of these bytes, in whole stable pages; its bytes afterwards.
pub fn grow_bytes(bytes: &[u8], ceiling: u64, end: u64) -> Result<Vec<u8>, Refusal> {
    let count = bytes.len() as u64 / config::STABLE_PAGE_SIZE;
    let mut store = Store::unopened(bytes, count, ceiling);
    store.call(|| memory::ensure_capacity(end))?;
    Ok(store.snapshot())
}

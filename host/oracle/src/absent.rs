//! The same functions where the original's files are not at hand.

use crate::{Draft, Refresh, Refusal, Superblock, WriteStats};
use std::convert::Infallible;

fn absent() -> ! {
    panic!("the original's files are not at hand (see oracle::AVAILABLE)")
}

pub fn fnv1a64(_bytes: &[u8]) -> u64 {
    absent()
}

pub fn fresh() -> Vec<u8> {
    absent()
}

pub fn load(_bytes: &[u8]) -> Result<Superblock, Refusal> {
    absent()
}

pub fn store(_memory: &[u8], _block: &Superblock) -> Result<Vec<u8>, Refusal> {
    absent()
}

pub fn grow(_ceiling: u64, _count: u64, _end: u64) -> Result<u64, Refusal> {
    absent()
}

pub fn grow_bytes(_bytes: &[u8], _ceiling: u64, _end: u64) -> Result<Vec<u8>, Refusal> {
    absent()
}

/// No value of it can be made.
pub struct Store(Infallible);

macro_rules! methods {
    ($(fn $name:ident($($argument:ident: $type:ty),*) -> $answer:ty;)*) => {
        impl Store {
            pub fn open(_bytes: &[u8], _count: u64, _ceiling: u64) -> Result<Self, Refusal> {
                absent()
            }
            pub fn count(&self) -> u64 {
                match self.0 {}
            }
            pub fn snapshot(&self) -> Vec<u8> {
                match self.0 {}
            }
            pub fn difference(&self, _bytes: &[u8]) -> Option<usize> {
                match self.0 {}
            }
            $(pub fn $name(&mut self $(, $argument: $type)*) -> $answer {
                match self.0 {}
            })*
        }
    };
}

methods! {
    fn superblock() -> Result<Superblock, Refusal>;
    fn begin_update() -> Result<u64, Refusal>;
    fn set_write_budget(_max_pages: u64, _max_bytes: u64) -> ();
    fn write_stats() -> WriteStats;
    fn dirty_page_count() -> u64;
    fn take_draft() -> Option<Draft>;
    fn read_at(_offset: u64, _dst: &mut [u8]) -> Result<bool, Refusal>;
    fn write_at(_offset: u64, _bytes: &[u8]) -> Result<(), Refusal>;
    fn truncate(_size: u64) -> Result<(), Refusal>;
    fn commit_update() -> Result<(), Refusal>;
    fn rollback_update() -> ();
    fn file_size() -> Result<u64, Refusal>;
    fn begin_import(_total_size: u64, _checksum: u64) -> Result<(), Refusal>;
    fn import_chunk(_offset: u64, _bytes: &[u8]) -> Result<(), Refusal>;
    fn finish_import() -> Result<(), Refusal>;
    fn cancel_import() -> Result<(), Refusal>;
    fn export_chunk(_offset: u64, _len: u64) -> Result<Vec<u8>, Refusal>;
    fn checksum() -> Result<u64, Refusal>;
    fn refresh_checksum() -> Result<u64, Refusal>;
    fn refresh_checksum_chunk(_max_bytes: u64) -> Result<Refresh, Refusal>;
}

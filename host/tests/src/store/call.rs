//! Calls, as values and as text.

use super::Budget;
use crate::prng::Prng;
use std::fmt;

/// Bytes made from a seed, from `start` on; zeros for the seed 0.
#[derive(Clone, Copy, Debug, Eq, PartialEq)]
pub struct Bytes {
    pub seed: u64,
    pub start: usize,
    pub len: usize,
}

impl Bytes {
    pub fn make(&self) -> Vec<u8> {
        if self.seed == 0 {
            return vec![0; self.len];
        }
        let mut bytes = Prng::new(self.seed).bytes(self.start + self.len);
        bytes.split_off(self.start)
    }
}

#[derive(Clone, Copy, Debug, Eq, PartialEq)]
pub enum Call {
    BeginUpdate(Budget),
    FileSize,
    ReadAt { offset: u64, len: usize },
    WriteAt { offset: u64, bytes: Bytes },
    Truncate(u64),
    CommitUpdate,
    RollbackUpdate,
    BeginImport { total: u64, expected: u64 },
    ImportChunk { offset: u64, bytes: Bytes },
    FinishImport,
    CancelImport,
    ExportChunk { offset: u64, len: usize },
    Checksum,
    RefreshChecksum,
    RefreshChecksumChunk(u64),
    DirtyPage(u64),
}

impl Call {
    /// The name of the function.
    pub fn name(&self) -> &'static str {
        match self {
            Call::BeginUpdate(_) => "begin_update",
            Call::FileSize => "file_size",
            Call::ReadAt { .. } => "read_at",
            Call::WriteAt { .. } => "write_at",
            Call::Truncate(_) => "truncate",
            Call::CommitUpdate => "commit_update",
            Call::RollbackUpdate => "rollback_update",
            Call::BeginImport { .. } => "begin_import",
            Call::ImportChunk { .. } => "import_chunk",
            Call::FinishImport => "finish_import",
            Call::CancelImport => "cancel_import",
            Call::ExportChunk { .. } => "export_chunk",
            Call::Checksum => "checksum",
            Call::RefreshChecksum => "refresh_checksum",
            Call::RefreshChecksumChunk(_) => "refresh_checksum_chunk",
            Call::DirtyPage(_) => "dirty_page",
        }
    }

    /// Whether it is to change the file: a write that is not empty, or a truncation, also to the size it has.
    pub fn is_change(&self) -> bool {
        match self {
            Call::WriteAt { bytes, .. } => bytes.len > 0,
            Call::Truncate(_) => true,
            _ => false,
        }
    }

    fn numbers(&self) -> Vec<u64> {
        let with_bytes = |offset: u64, bytes: &Bytes| {
            vec![offset, bytes.seed, bytes.start as u64, bytes.len as u64]
        };
        match self {
            Call::BeginUpdate(Some((pages, bytes))) => vec![*pages, *bytes],
            Call::ReadAt { offset, len } | Call::ExportChunk { offset, len } => {
                vec![*offset, *len as u64]
            }
            Call::WriteAt { offset, bytes } => with_bytes(*offset, bytes),
            Call::ImportChunk { offset, bytes } => with_bytes(*offset, bytes),
            Call::BeginImport { total, expected } => vec![*total, *expected],
            Call::Truncate(number)
            | Call::RefreshChecksumChunk(number)
            | Call::DirtyPage(number) => vec![*number],
            _ => Vec::new(),
        }
    }

    /// The call that `Display` wrote so.
    pub fn parse(text: &str) -> Option<Self> {
        let mut words = text.split(' ');
        let name = words.next()?;
        let numbers: Option<Vec<u64>> = words.map(|word| word.parse().ok()).collect();
        let bytes = |seed: u64, start: u64, len: u64| Bytes {
            seed,
            start: start as usize,
            len: len as usize,
        };
        Some(match (name, &numbers?[..]) {
            ("begin_update", []) => Call::BeginUpdate(None),
            ("begin_update", [pages, bytes]) => Call::BeginUpdate(Some((*pages, *bytes))),
            ("file_size", []) => Call::FileSize,
            ("read_at", [offset, len]) => Call::ReadAt {
                offset: *offset,
                len: *len as usize,
            },
            ("write_at", [offset, seed, start, len]) => Call::WriteAt {
                offset: *offset,
                bytes: bytes(*seed, *start, *len),
            },
            ("truncate", [size]) => Call::Truncate(*size),
            ("commit_update", []) => Call::CommitUpdate,
            ("rollback_update", []) => Call::RollbackUpdate,
            ("begin_import", [total, expected]) => Call::BeginImport {
                total: *total,
                expected: *expected,
            },
            ("import_chunk", [offset, seed, start, len]) => Call::ImportChunk {
                offset: *offset,
                bytes: bytes(*seed, *start, *len),
            },
            ("finish_import", []) => Call::FinishImport,
            ("cancel_import", []) => Call::CancelImport,
            ("export_chunk", [offset, len]) => Call::ExportChunk {
                offset: *offset,
                len: *len as usize,
            },
            ("checksum", []) => Call::Checksum,
            ("refresh_checksum", []) => Call::RefreshChecksum,
            ("refresh_checksum_chunk", [n]) => Call::RefreshChecksumChunk(*n),
            ("dirty_page", [page]) => Call::DirtyPage(*page),
            _ => return None,
        })
    }
}

impl fmt::Display for Call {
    fn fmt(&self, f: &mut fmt::Formatter<'_>) -> fmt::Result {
        f.write_str(self.name())?;
        self.numbers()
            .iter()
            .try_for_each(|number| write!(f, " {number}"))
    }
}

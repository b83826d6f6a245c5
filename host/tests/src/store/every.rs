//! One call of each kind, for tests that go through all of them.

use super::{Bytes, Call};

pub fn every_call() -> Vec<Call> {
    let bytes = Bytes {
        seed: 4,
        start: 0,
        len: 300,
    };
    vec![
        Call::BeginUpdate(None),
        Call::BeginUpdate(Some((3, 100_000))),
        Call::FileSize,
        Call::ReadAt {
            offset: 100,
            len: 40_000,
        },
        Call::WriteAt {
            offset: 16_300,
            bytes,
        },
        Call::Truncate(40_000),
        Call::CommitUpdate,
        Call::RollbackUpdate,
        Call::BeginImport {
            total: 300,
            expected: 5,
        },
        Call::ImportChunk { offset: 0, bytes },
        Call::FinishImport,
        Call::CancelImport,
        Call::ExportChunk {
            offset: 7,
            len: 500,
        },
        Call::Checksum,
        Call::RefreshChecksum,
        Call::RefreshChecksumChunk(1_000),
        Call::DirtyPage(0),
    ]
}

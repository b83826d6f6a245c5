//! The numbers of the original's errors.

use crate::stable::memory::StableMemoryError;
use crate::Refusal;

const UPDATE_BEGUN_TWICE: u64 = 13;
const BUDGET: u64 = 30;

/// What an error of a beginning update is to callers.
pub fn at_begin(error: StableMemoryError) -> Refusal {
    of(error, UPDATE_BEGUN_TWICE)
}

/// What an error of any other call is to callers.
pub fn elsewhere(error: StableMemoryError) -> Refusal {
    of(error, BUDGET)
}

/// With its failpoints off, the original has one use of their variant at a beginning and one at a write.
fn of(error: StableMemoryError, failpoint: u64) -> Refusal {
    use StableMemoryError::*;
    let (number, values) = match error {
        ForeignStableMemoryImage => (1, [0; 2]),
        UnsupportedLayoutVersion(version) => (2, [version, 0]),
        MetaChecksumMismatch => (3, [0; 2]),
        ImportAlreadyStarted => (10, [0; 2]),
        ImportNotStarted => (11, [0; 2]),
        UpdateInProgress => (12, [0; 2]),
        OffsetOverflow => (20, [0; 2]),
        ImportOutOfOrder { .. } => (21, [0; 2]),
        ImportOutOfBounds { .. } => (22, [0; 2]),
        ImportIncomplete { .. } => (23, [0; 2]),
        ChecksumMismatch { expected, actual } => (24, [expected, actual]),
        ChecksumRefreshChunkEmpty => (25, [0; 2]),
        Failpoint(_) => (failpoint, [0; 2]),
        ZeroExtentLimitExceeded { .. } => (31, [0; 2]),
        GrowFailed {
            current_pages,
            required_pages,
        } => (32, [current_pages, required_pages]),
        NotInitialized | AlreadyInitialized | MemoryAlreadyRegistered | ReadOutOfBounds { .. } => {
            panic!("no call of an open store answers {error:?}")
        }
    };
    Refusal { number, values }
}

//! Refusals, in words.

use std::fmt;

/// Why a call was refused. Each has its number in `docs/REFUSALS.md`.
#[derive(Clone, Copy, Debug, Eq, PartialEq)]
pub enum Error {
    ForeignStableMemoryImage,
    UnsupportedLayoutVersion(u64),
    MetaChecksumMismatch,
    ImageOutOfMemory,
    /// While an import is open no update and no other import begins, no step of a refresh is made, and no direct
    /// truncation or write that has a byte.
    ImportAlreadyStarted,
    ImportNotStarted,
    UpdateInProgress,
    UpdateBegunTwice,
    OffsetOverflow,
    ImportOutOfOrder,
    ImportOutOfBounds,
    ImportIncomplete,
    ChecksumMismatch {
        expected: u64,
        actual: u64,
    },
    ChecksumRefreshChunkEmpty,
    BudgetExceeded,
    ZeroExtentLimitExceeded,
    /// In stable pages of 65,536 bytes.
    GrowFailed {
        current: u64,
        required: u64,
    },
    FramesFull,
    RecordFull,
    BufferTooShort,
}

impl Error {
    /// The refusal of this number with these values, if there is one.
    pub fn of(number: u64, values: [u64; 2]) -> Option<Self> {
        let [first, second] = values;
        Some(match number {
            1 => Error::ForeignStableMemoryImage,
            2 => Error::UnsupportedLayoutVersion(first),
            3 => Error::MetaChecksumMismatch,
            4 => Error::ImageOutOfMemory,
            10 => Error::ImportAlreadyStarted,
            11 => Error::ImportNotStarted,
            12 => Error::UpdateInProgress,
            13 => Error::UpdateBegunTwice,
            20 => Error::OffsetOverflow,
            21 => Error::ImportOutOfOrder,
            22 => Error::ImportOutOfBounds,
            23 => Error::ImportIncomplete,
            24 => Error::ChecksumMismatch {
                expected: first,
                actual: second,
            },
            25 => Error::ChecksumRefreshChunkEmpty,
            30 => Error::BudgetExceeded,
            31 => Error::ZeroExtentLimitExceeded,
            32 => Error::GrowFailed {
                current: first,
                required: second,
            },
            33 => Error::FramesFull,
            34 => Error::RecordFull,
            35 => Error::BufferTooShort,
            _ => return None,
        })
    }

    pub fn number(&self) -> u64 {
        match self {
            Error::ForeignStableMemoryImage => 1,
            Error::UnsupportedLayoutVersion(_) => 2,
            Error::MetaChecksumMismatch => 3,
            Error::ImageOutOfMemory => 4,
            Error::ImportAlreadyStarted => 10,
            Error::ImportNotStarted => 11,
            Error::UpdateInProgress => 12,
            Error::UpdateBegunTwice => 13,
            Error::OffsetOverflow => 20,
            Error::ImportOutOfOrder => 21,
            Error::ImportOutOfBounds => 22,
            Error::ImportIncomplete => 23,
            Error::ChecksumMismatch { .. } => 24,
            Error::ChecksumRefreshChunkEmpty => 25,
            Error::BudgetExceeded => 30,
            Error::ZeroExtentLimitExceeded => 31,
            Error::GrowFailed { .. } => 32,
            Error::FramesFull => 33,
            Error::RecordFull => 34,
            Error::BufferTooShort => 35,
        }
    }
}

impl fmt::Display for Error {
    fn fmt(&self, f: &mut fmt::Formatter<'_>) -> fmt::Result {
        let text = match self {
            Error::UnsupportedLayoutVersion(found) => {
                return write!(f, "the version or the layout version is {found}, not 8");
            }
            Error::ChecksumMismatch { expected, actual } => {
                return write!(
                    f,
                    "the imported bytes have the checksum {actual:#018x}, not {expected:#018x}"
                );
            }
            Error::GrowFailed { current, required } => {
                return write!(
                    f,
                    "memory of {current} stable pages cannot grow to {required}"
                );
            }
            Error::ForeignStableMemoryImage => "the magic is another one",
            Error::MetaChecksumMismatch => {
                "more than 1,024 zero runs, a wrong checksum, or runs that are not normalized"
            }
            Error::ImageOutOfMemory => "the image or its open import does not lie inside memory",
            Error::ImportAlreadyStarted => "an import is open",
            Error::ImportNotStarted => "no import is open",
            Error::UpdateInProgress => "an update is open",
            Error::UpdateBegunTwice => "an update is begun inside another",
            Error::OffsetOverflow => "a sum of offsets and lengths is above 2^64 - 1",
            Error::ImportOutOfOrder => "a chunk of an import is not at the next offset",
            Error::ImportOutOfBounds => "a chunk of an import goes past its total",
            Error::ImportIncomplete => "the import is to finish before all its bytes came",
            Error::ChecksumRefreshChunkEmpty => "a step of the checksum's refresh of 0 bytes",
            Error::BudgetExceeded => "one more dirty page would pass the update's budget",
            Error::ZeroExtentLimitExceeded => "more zero runs than a superblock holds",
            Error::FramesFull => "one more page would be dirty, and every frame holds one",
            Error::RecordFull => "one more run is to be recorded, and the record is full",
            Error::BufferTooShort => "a lent buffer is shorter than what it has to hold",
        };
        f.write_str(text)
    }
}

impl std::error::Error for Error {}

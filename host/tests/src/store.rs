//! Lists of calls on an image, run by the library, by the original, by a model of documents 01 and 02 and by their plain file.

pub mod act;
pub mod buffers;
pub mod call;
pub mod choose;
pub mod counts;
pub mod every;
pub mod library;
pub mod made;
pub mod model;
pub mod original;
pub mod outcome;
pub mod place;
pub mod plain_file;
pub mod run;
pub mod shrink;
pub mod update;

pub use act::Act;
pub use buffers::Buffers;
pub use call::{Bytes, Call};
pub use library::Library;
pub use made::Made;
pub use model::Model;
pub use original::Original;
pub use outcome::Outcome;
pub use plain_file::PlainFile;
pub use run::Run;

pub const PAGE_LEN: usize = 16_384;

/// The pages and the bytes that may be dirty.
pub type Budget = Option<(u64, u64)>;

/// How many dirty pages and record entries there is room for.
#[derive(Clone, Copy, Debug, Eq, PartialEq)]
pub struct Room {
    pub frames: usize,
    pub entries: usize,
}

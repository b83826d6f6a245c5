//! An image with the buffers that its calls are lent.

use crate::ffi::calls::{self, Lent};
use crate::{
    work_numbers, Aligned, Builder, Error, ANSWER_NUMBERS, PAGE_BYTES, STABLE_PAGE_BYTES,
    STATE_BYTES,
};

/// The places of the state's numbers that are read here.
const STABLE_PAGES: usize = 0;
const DIRTY_PAGES: usize = 25;
/// A file that grows makes its last page dirty if that is not whole. The new last page is one of a write's; a truncation may make it dirty too.
const WRITE_ENDS: usize = 1;
const TRUNCATION_ENDS: usize = 2;

/// How many pages, and how many bytes of them, an update may make dirty.
#[derive(Clone, Copy, Debug, Eq, PartialEq)]
pub struct Budget {
    pub max_pages: u64,
    pub max_bytes: u64,
}

/// How far a refresh of the checksum came.
#[derive(Clone, Copy, Debug, Eq, PartialEq)]
pub struct ChecksumRefresh {
    pub complete: bool,
    pub checksum: u64,
    pub scanned_bytes: u64,
    pub db_size: u64,
}

/// An open image. It asks for no memory after its opening.
pub struct Store {
    pub(crate) state: [u8; STATE_BYTES],
    pub(crate) mem: Aligned,
    pub(crate) frames: Aligned,
    pub(crate) numbers: Vec<u64>,
    pub(crate) clean: Aligned,
    pub(crate) record: Vec<u64>,
    pub(crate) work: Vec<u64>,
}

type Values = [u64; ANSWER_NUMBERS];

/// The pages that so many bytes from an offset on have a byte in.
fn pages_of(offset: u64, len: usize) -> usize {
    match len {
        0 => 0,
        _ => ((offset % PAGE_BYTES as u64) as usize + len).div_ceil(PAGE_BYTES),
    }
}

fn result(number: u64, values: Values) -> Result<Values, Error> {
    if number == 0 {
        return Ok(values);
    }
    Err(Error::of(number, [values[0], values[1]]).expect("a refusal's number"))
}

impl Store {
    pub fn builder() -> Builder {
        Builder::default()
    }

    /// A call that is lent memory alone.
    fn on_memory(
        &mut self,
        call: impl FnOnce(&mut [u8], &mut [u8], &mut [u64]) -> u64,
    ) -> Result<Values, Error> {
        let mut answer = [0; ANSWER_NUMBERS];
        let number = call(&mut self.state, &mut self.mem, &mut answer);
        result(number, answer)
    }

    /// A call that makes at most so many more pages dirty. It is lent the frames in use and as many more, if there are so many: with all of
    /// them its answer is the same, but the end of an update or of a direct call fills with zeros what is lent.
    fn on_frames(
        &mut self,
        more: usize,
        call: impl FnOnce(&mut [u8], &mut Lent, &mut [u64]) -> u64,
    ) -> Result<Values, Error> {
        let dirty = self.number(DIRTY_PAGES) as usize;
        let frames = self.numbers.len().min(dirty.saturating_add(more));
        let mut answer = [0; ANSWER_NUMBERS];
        let mut lent = Lent {
            mem: &mut self.mem,
            frames: &mut self.frames[..frames * PAGE_BYTES],
            numbers: &mut self.numbers[..frames],
            clean: &mut self.clean,
            record: &mut self.record,
            work: &mut self.work[..work_numbers(frames)],
        };
        let number = call(&mut self.state, &mut lent, &mut answer);
        result(number, answer)
    }

    fn number(&self, place: usize) -> u64 {
        let bytes = &self.state[8 * place..8 * (place + 1)];
        u64::from_le_bytes(bytes.try_into().expect("eight bytes"))
    }

    /// Opens what memory holds, of which `count` stable pages are in use.
    pub(crate) fn open(&mut self, count: u64) -> Result<(), Error> {
        self.on_memory(|state, mem, answer| calls::open(state, mem, count, answer))?;
        Ok(())
    }

    /// Begins an update and tells the size of the file.
    pub fn begin_update(&mut self, budget: Option<Budget>) -> Result<u64, Error> {
        let limited = u64::from(budget.is_some());
        let (pages, bytes) = budget.map_or((0, 0), |most| (most.max_pages, most.max_bytes));
        let begin = |state: &mut [u8], _: &mut [u8], answer: &mut [u64]| {
            calls::begin_update(state, limited, pages, bytes, answer)
        };
        Ok(self.on_memory(begin)?[0])
    }

    /// The size of the file that reads see.
    pub fn file_size(&self) -> Result<u64, Error> {
        let mut answer = [0; ANSWER_NUMBERS];
        let number = calls::file_size(&self.state, &mut answer);
        Ok(result(number, answer)?[0])
    }

    /// Fills all of `dst`, with zeros past the size. Whether the read is full: empty, or at an end at or before the size.
    pub fn read_at(&mut self, offset: u64, dst: &mut [u8]) -> Result<bool, Error> {
        let read = |state: &mut [u8], lent: &mut Lent, answer: &mut [u64]| {
            calls::read_at(state, lent, offset, dst, answer)
        };
        Ok(self.on_frames(0, read)?[0] == 1)
    }

    /// In the update that is open, or directly. While an import is open a direct write is refused, unless it is empty:
    /// [`Error::ImportAlreadyStarted`].
    pub fn write_at(&mut self, offset: u64, bytes: &[u8]) -> Result<(), Error> {
        let write = |state: &mut [u8], lent: &mut Lent, answer: &mut [u64]| {
            calls::write_at(state, lent, offset, bytes, answer)
        };
        self.on_frames(pages_of(offset, bytes.len()) + WRITE_ENDS, write)?;
        Ok(())
    }

    /// In the update that is open, or directly. While an import is open a direct truncation is refused:
    /// [`Error::ImportAlreadyStarted`].
    pub fn truncate(&mut self, size: u64) -> Result<(), Error> {
        let truncate = |state: &mut [u8], lent: &mut Lent, answer: &mut [u64]| {
            calls::truncate(state, lent, size, answer)
        };
        self.on_frames(TRUNCATION_ENDS, truncate)?;
        Ok(())
    }

    /// The update is over then, accepted or not. With none open nothing happens.
    pub fn commit_update(&mut self) -> Result<(), Error> {
        self.on_frames(0, calls::commit_update)?;
        Ok(())
    }

    /// The update is over then. With none open nothing happens.
    pub fn rollback_update(&mut self) -> Result<(), Error> {
        self.on_frames(0, calls::rollback_update)?;
        Ok(())
    }

    /// Begins an import of `total` bytes whose FNV-1a hash is to be `expected`. While it is open the file stays: no update
    /// begins, and direct truncations and writes that have a byte are refused. It does not outlive the store: opening
    /// [`Store::memory`] again cancels it.
    pub fn begin_import(&mut self, total: u64, expected: u64) -> Result<(), Error> {
        self.on_memory(|state, mem, answer| {
            calls::begin_import(state, mem, total, expected, answer)
        })?;
        Ok(())
    }

    /// The import's next bytes, which are those from `offset` on.
    pub fn import_chunk(&mut self, offset: u64, bytes: &[u8]) -> Result<(), Error> {
        self.on_memory(|state, mem, answer| {
            calls::import_chunk(state, mem, offset, bytes, answer)
        })?;
        Ok(())
    }

    /// The imported bytes become the file.
    pub fn finish_import(&mut self) -> Result<(), Error> {
        self.on_memory(calls::finish_import)?;
        Ok(())
    }

    pub fn cancel_import(&mut self) -> Result<(), Error> {
        self.on_memory(calls::cancel_import)?;
        Ok(())
    }

    /// Copies bytes of the file to the front of `dst`, up to its length or the size; how many.
    pub fn export_chunk(&self, offset: u64, dst: &mut [u8]) -> Result<usize, Error> {
        let mut answer = [0; ANSWER_NUMBERS];
        let number = calls::export_chunk(&self.state, &self.mem, offset, dst, &mut answer);
        Ok(result(number, answer)?[0] as usize)
    }

    /// The FNV-1a hash of the file.
    pub fn checksum(&self) -> Result<u64, Error> {
        let mut answer = [0; ANSWER_NUMBERS];
        let number = calls::checksum(&self.state, &self.mem, &mut answer);
        Ok(result(number, answer)?[0])
    }

    /// The same, stored in the image.
    pub fn refresh_checksum(&mut self) -> Result<u64, Error> {
        Ok(self.on_memory(calls::refresh_checksum)?[0])
    }

    /// The same in steps of at most so many bytes; the image keeps how far they came.
    pub fn refresh_checksum_chunk(&mut self, max_bytes: u64) -> Result<ChecksumRefresh, Error> {
        let [complete, checksum, scanned_bytes, db_size] =
            self.on_memory(|state, mem, answer| {
                calls::refresh_checksum_chunk(state, mem, max_bytes, answer)
            })?;
        Ok(ChecksumRefresh {
            complete: complete == 1,
            checksum,
            scanned_bytes,
            db_size,
        })
    }

    /// The bytes of a page that the open update made dirty, none where it did not.
    pub fn dirty_page(&self, page: u64) -> Option<Vec<u8>> {
        let mut answer = [0; ANSWER_NUMBERS];
        let mut bytes = vec![0; PAGE_BYTES];
        let Self {
            frames, numbers, ..
        } = self;
        calls::dirty_page(&self.state, frames, numbers, page, &mut bytes, &mut answer);
        (answer[0] > 0).then_some(bytes)
    }

    /// How many stable pages of memory are in use.
    pub fn stable_pages(&self) -> u64 {
        self.number(STABLE_PAGES)
    }

    /// The bytes of the image: what to keep, and what `Builder::open` takes.
    pub fn memory(&self) -> &[u8] {
        &self.mem[..self.stable_pages() as usize * STABLE_PAGE_BYTES]
    }
}

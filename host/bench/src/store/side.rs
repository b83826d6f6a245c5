//! The two sides. The library is called through the crate's raw layer, so that nothing is added to it, or as a `Store`.

use super::image;
use oracle::Store;
use std::rc::Rc;
use yuharopu::raw::{self, Lent};
use yuharopu::{
    work_numbers, Aligned, ANSWER_NUMBERS, CLEAN_BYTES, PAGE_BYTES, STABLE_PAGE_BYTES, STATE_BYTES,
};

const RECORD_ENTRIES: usize = 16;

/// Every call is to be accepted.
pub trait Side {
    fn begin(&mut self);
    fn read(&mut self, offset: u64, dst: &mut [u8]);
    fn write(&mut self, offset: u64, bytes: &[u8]);
    fn truncate(&mut self, size: u64);
    fn commit(&mut self);
    fn rollback(&mut self);
    fn checksum(&mut self) -> u64;
    fn refresh(&mut self, max_bytes: u64) -> u64;
    fn begin_import(&mut self, total: u64, expected: u64);
    fn import_chunk(&mut self, offset: u64, bytes: &[u8]);
    fn finish_import(&mut self);
    /// Back to the image at the start; an import has grown memory.
    fn reopen(&mut self);
}

/// The library's side, with the buffers that it is lent.
pub trait Held {
    fn memory(&self) -> &[u8];
    /// Lends the buffers for many calls at once: what it takes to lend them is no part of a call.
    fn lend(&mut self, work: &mut dyn FnMut(&mut dyn Side));
}

/// Begins an update and writes the first pages.
pub fn make_dirty(side: &mut dyn Side, pages: u64) {
    let bytes = image::bytes(PAGE_BYTES);
    side.begin();
    for page in 0..pages {
        side.write(page * PAGE_BYTES as u64, &bytes);
    }
}

/// The buffers of the library's calls, and what opening left, to go back to.
pub struct Library {
    opened: [u8; STATE_BYTES],
    first_page: Vec<u8>,
    state: [u8; STATE_BYTES],
    mem: Aligned,
    frames: Aligned,
    numbers: Vec<u64>,
    clean: Aligned,
    record: Vec<u64>,
    work: Vec<u64>,
}

impl Library {
    fn open(image: &[u8], frames: usize, spare: usize) -> Self {
        let mut mem = Aligned::zeros(image.len() + spare);
        mem[..image.len()].copy_from_slice(image);
        let mut state = [0; STATE_BYTES];
        let count = (image.len() / STABLE_PAGE_BYTES) as u64;
        let number = raw::open(&mut state, &mut mem, count, &mut [0; ANSWER_NUMBERS]);
        assert_eq!(number, 0, "an image");
        Self {
            opened: state,
            first_page: image[..STABLE_PAGE_BYTES].to_vec(),
            state,
            mem,
            frames: Aligned::zeros(frames * PAGE_BYTES),
            numbers: vec![0; frames],
            clean: Aligned::zeros(CLEAN_BYTES),
            record: vec![0; 2 * RECORD_ENTRIES],
            work: vec![0; work_numbers(frames)],
        }
    }
}

impl Held for Library {
    fn memory(&self) -> &[u8] {
        let count = u64::from_le_bytes(self.state[..8].try_into().expect("eight bytes"));
        &self.mem[..count as usize * STABLE_PAGE_BYTES]
    }

    fn lend(&mut self, work: &mut dyn FnMut(&mut dyn Side)) {
        let lent = Lent {
            mem: &mut self.mem,
            frames: &mut self.frames,
            numbers: &mut self.numbers,
            clean: &mut self.clean,
            record: &mut self.record,
            work: &mut self.work,
        };
        work(&mut Calls {
            opened: &self.opened,
            first_page: &self.first_page,
            state: &mut self.state,
            lent,
        });
    }
}

/// The library's calls, with slices lent to each and no more.
struct Calls<'a> {
    opened: &'a [u8; STATE_BYTES],
    first_page: &'a [u8],
    state: &'a mut [u8; STATE_BYTES],
    lent: Lent<'a>,
}

impl Calls<'_> {
    fn on_all(&mut self, call: impl FnOnce(&mut [u8], &mut Lent, &mut [u64]) -> u64) {
        let number = call(self.state, &mut self.lent, &mut [0; ANSWER_NUMBERS]);
        assert_eq!(number, 0, "an accepted call");
    }

    fn on_memory(
        &mut self,
        call: impl FnOnce(&mut [u8], &mut [u8], &mut [u64]) -> u64,
    ) -> [u64; ANSWER_NUMBERS] {
        let mut answer = [0; ANSWER_NUMBERS];
        let number = call(self.state, self.lent.mem, &mut answer);
        assert_eq!(number, 0, "an accepted call");
        answer
    }
}

impl Side for Calls<'_> {
    fn begin(&mut self) {
        self.on_memory(|state, _, answer| raw::begin_update(state, 0, 0, 0, answer));
    }

    fn read(&mut self, offset: u64, dst: &mut [u8]) {
        self.on_all(|state, lent, answer| raw::read_at(state, lent, offset, dst, answer));
    }

    fn write(&mut self, offset: u64, bytes: &[u8]) {
        self.on_all(|state, lent, answer| raw::write_at(state, lent, offset, bytes, answer));
    }

    fn truncate(&mut self, size: u64) {
        self.on_all(|state, lent, answer| raw::truncate(state, lent, size, answer));
    }

    fn commit(&mut self) {
        self.on_all(raw::commit_update);
    }

    fn rollback(&mut self) {
        self.on_all(raw::rollback_update);
    }

    fn checksum(&mut self) -> u64 {
        self.on_memory(|state, mem, answer| raw::checksum(state, mem, answer))[0]
    }

    fn refresh(&mut self, max_bytes: u64) -> u64 {
        let step = |state: &mut [u8], mem: &mut [u8], answer: &mut [u64]| {
            raw::refresh_checksum_chunk(state, mem, max_bytes, answer)
        };
        self.on_memory(step)[1]
    }

    fn begin_import(&mut self, total: u64, expected: u64) {
        self.on_memory(|state, mem, answer| raw::begin_import(state, mem, total, expected, answer));
    }

    fn import_chunk(&mut self, offset: u64, bytes: &[u8]) {
        self.on_memory(|state, mem, answer| raw::import_chunk(state, mem, offset, bytes, answer));
    }

    fn finish_import(&mut self) {
        self.on_memory(raw::finish_import);
    }

    fn reopen(&mut self) {
        *self.state = *self.opened;
        self.lent.mem[..STABLE_PAGE_BYTES].copy_from_slice(self.first_page);
    }
}

/// The library as safe Rust.
pub struct Wrapped {
    image: Rc<[u8]>,
    frames: usize,
    store: yuharopu::Store,
}

impl Wrapped {
    fn open(image: Rc<[u8]>, frames: usize) -> Self {
        let builder = yuharopu::Store::builder().ceiling(0).frames(frames);
        let store = builder.record_entries(RECORD_ENTRIES).open(&image);
        Self {
            image,
            frames,
            store: store.expect("an image"),
        }
    }
}

impl Side for Wrapped {
    fn begin(&mut self) {
        self.store.begin_update(None).expect("an accepted call");
    }

    fn read(&mut self, offset: u64, dst: &mut [u8]) {
        self.store.read_at(offset, dst).expect("an accepted call");
    }

    fn write(&mut self, offset: u64, bytes: &[u8]) {
        let written = self.store.write_at(offset, bytes);
        written.expect("an accepted call");
    }

    fn truncate(&mut self, size: u64) {
        self.store.truncate(size).expect("an accepted call");
    }

    fn commit(&mut self) {
        self.store.commit_update().expect("an accepted call");
    }

    fn rollback(&mut self) {
        self.store.rollback_update().expect("an accepted call");
    }

    fn checksum(&mut self) -> u64 {
        self.store.checksum().expect("an accepted call")
    }

    fn refresh(&mut self, max_bytes: u64) -> u64 {
        let step = self.store.refresh_checksum_chunk(max_bytes);
        step.expect("an accepted call").checksum
    }

    fn begin_import(&mut self, total: u64, expected: u64) {
        let begun = self.store.begin_import(total, expected);
        begun.expect("an accepted call");
    }

    fn import_chunk(&mut self, offset: u64, bytes: &[u8]) {
        let taken = self.store.import_chunk(offset, bytes);
        taken.expect("an accepted call");
    }

    fn finish_import(&mut self) {
        self.store.finish_import().expect("an accepted call");
    }

    fn reopen(&mut self) {
        *self = Self::open(self.image.clone(), self.frames);
    }
}

impl Held for Wrapped {
    fn memory(&self) -> &[u8] {
        self.store.memory()
    }

    fn lend(&mut self, work: &mut dyn FnMut(&mut dyn Side)) {
        work(self);
    }
}

pub struct Original {
    image: Rc<[u8]>,
    ceiling: u64,
    /// The one context of the thread: further ones would make each call search for its own.
    store: Option<Store>,
}

impl Original {
    fn open(image: Rc<[u8]>, spare: usize) -> Self {
        let mut original = Self {
            ceiling: ((image.len() + spare) / STABLE_PAGE_BYTES) as u64,
            image,
            store: None,
        };
        original.reopen();
        original
    }

    fn store(&mut self) -> &mut Store {
        self.store.as_mut().expect("an open store")
    }
}

impl Side for Original {
    fn begin(&mut self) {
        self.store().begin_update().expect("an accepted call");
    }

    fn read(&mut self, offset: u64, dst: &mut [u8]) {
        self.store().read_at(offset, dst).expect("an accepted call");
    }

    fn write(&mut self, offset: u64, bytes: &[u8]) {
        self.store()
            .write_at(offset, bytes)
            .expect("an accepted call");
    }

    fn truncate(&mut self, size: u64) {
        self.store().truncate(size).expect("an accepted call");
    }

    fn commit(&mut self) {
        self.store().commit_update().expect("an accepted call");
    }

    fn rollback(&mut self) {
        self.store().rollback_update();
    }

    fn checksum(&mut self) -> u64 {
        self.store().checksum().expect("an accepted call")
    }

    fn refresh(&mut self, max_bytes: u64) -> u64 {
        let step = self.store().refresh_checksum_chunk(max_bytes);
        step.expect("an accepted call").checksum
    }

    fn begin_import(&mut self, total: u64, expected: u64) {
        let begun = self.store().begin_import(total, expected);
        begun.expect("an accepted call");
    }

    fn import_chunk(&mut self, offset: u64, bytes: &[u8]) {
        let taken = self.store().import_chunk(offset, bytes);
        taken.expect("an accepted call");
    }

    fn finish_import(&mut self) {
        self.store().finish_import().expect("an accepted call");
    }

    fn reopen(&mut self) {
        self.store = None;
        let count = (self.image.len() / STABLE_PAGE_BYTES) as u64;
        let opened = Store::open(&self.image, count, self.ceiling);
        self.store = Some(opened.expect("an image"));
    }
}

pub struct Pair<L = Library> {
    pub library: L,
    pub original: Original,
}

impl Pair {
    /// The same image on both sides; the library is lent so many frames, and memory has so many spare bytes.
    pub fn open(pages: u64, runs: u64, frames: usize, spare: usize) -> Self {
        Self::of(image::of(pages, runs), frames, spare)
    }

    /// The same with an image of which one page in 16 is data.
    pub fn sparse(pages: u64, runs: u64) -> Self {
        Self::of(image::sparse(pages, runs), 0, 0)
    }

    /// The same with a record that has so many entries.
    pub fn recording(pages: u64, runs: u64, entries: usize, spare: usize) -> Self {
        let mut pair = Self::open(pages, runs, 0, spare);
        pair.library.record = vec![0; 2 * entries];
        pair
    }

    fn of(image: Vec<u8>, frames: usize, spare: usize) -> Self {
        let image: Rc<[u8]> = image.into();
        Self {
            library: Library::open(&image, frames, spare),
            original: Original::open(image, spare),
        }
    }
}

impl Pair<Wrapped> {
    /// The same with a `Store` that has so many frames.
    pub fn wrapped(pages: u64, runs: u64, frames: usize) -> Self {
        let image: Rc<[u8]> = image::of(pages, runs).into();
        Self {
            library: Wrapped::open(image.clone(), frames),
            original: Original::open(image, 0),
        }
    }
}

impl<L: Held> Pair<L> {
    /// What both sides give of the same work: the library, then the original.
    pub fn both<T>(&mut self, mut work: impl FnMut(&mut dyn Side) -> T) -> [T; 2] {
        let mut library = None;
        self.library.lend(&mut |side| library = Some(work(side)));
        let library = library.expect("lent once");
        [library, work(&mut self.original)]
    }

    /// Both sides read the same.
    pub fn read_same(&mut self, offset: u64, len: usize) {
        let [library, original] = self.both(|side| {
            let mut bytes = vec![0; len];
            side.read(offset, &mut bytes);
            bytes
        });
        assert_eq!(library, original, "one file");
    }

    /// With no update open, memory is the same on both sides.
    pub fn is_same(&mut self) {
        let Self { library, original } = self;
        let difference = original.store().difference(library.memory());
        assert_eq!(difference, None, "one memory");
    }
}

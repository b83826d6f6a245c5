//! An update after document 01, written apart from the library: pages, record and cache as lists.

use super::{Budget, Room, PAGE_LEN};
use crate::plan::{Run, PAGE};

const OVERFLOW: u64 = 20;
const BUDGET: u64 = 30;
const FRAMES_FULL: u64 = 33;
const RECORD_FULL: u64 = 34;
const CACHE_PAGES: usize = 8;

pub type Page = (u64, Vec<u8>);

/// The image below an update.
pub struct View<'a> {
    pub size: u64,
    pub base: u64,
    pub runs: &'a [Run],
    pub memory: &'a [u8],
}

impl View<'_> {
    /// "The image's page is zeros if an image run covers it, else the bytes at base + page x 16,384; past the size it is
    /// zeros."
    pub fn page(&self, page: u64) -> Vec<u8> {
        let mut bytes = vec![0; PAGE_LEN];
        let start = page * PAGE;
        if covers(self.runs, page) || start >= self.size {
            return bytes;
        }
        let len = PAGE.min(self.size - start) as usize;
        let from = (self.base + start) as usize;
        bytes[..len].copy_from_slice(&self.memory[from..from + len]);
        bytes
    }
}

pub struct Update {
    begun: u64,
    pub size: u64,
    /// In order of first touch.
    pub dirty: Vec<Page>,
    /// In order of push, not merged.
    pub record: Vec<Run>,
    /// The oldest first.
    pub cache: Vec<Page>,
    budget: Budget,
    /// 0 not passed, 1 by pages, 2 by bytes.
    pub passed: u64,
    pub peak: (u64, u64),
    pub room: Room,
    /// The most frames and clean frames that were ever in use.
    pub used: (usize, usize),
}

type Tried<T> = Result<T, u64>;

impl Update {
    pub fn begin(size: u64, budget: Budget, room: Room) -> Self {
        Self {
            begun: size,
            size,
            dirty: Vec::new(),
            record: Vec::new(),
            cache: Vec::new(),
            budget,
            passed: 0,
            peak: (0, 0),
            room,
            used: (0, 0),
        }
    }

    pub fn is_empty(&self) -> bool {
        self.size == self.begun && self.dirty.is_empty() && self.record.is_empty()
    }

    /// The update's numbers in the state.
    pub fn numbers(&self) -> [u64; 19] {
        let mut numbers = [0; 19];
        // what `Library` passes where there is no budget
        let (max_pages, max_bytes) = self.budget.unwrap_or((7, 7));
        numbers[..5].copy_from_slice(&[
            self.begun,
            self.size,
            self.dirty.len() as u64,
            self.record.len() as u64,
            self.cache.len() as u64,
        ]);
        for (place, (page, _)) in numbers[5..13].iter_mut().zip(&self.cache) {
            *place = *page;
        }
        numbers[13..].copy_from_slice(&[
            u64::from(self.budget.is_some()),
            max_pages,
            max_bytes,
            self.passed,
            self.peak.0,
            self.peak.1,
        ]);
        numbers
    }

    /// Whether it is full, and the bytes.
    pub fn read(&mut self, image: &View, offset: u64, len: usize) -> (bool, Vec<u8>) {
        let mut bytes = vec![0; len];
        let below = self.size.saturating_sub(offset).min(len as u64) as usize;
        for (page, within, part) in parts(offset, below) {
            let end = within + part.len();
            bytes[part].copy_from_slice(&self.look_up(image, page)[within..end]);
        }
        (below == len, bytes)
    }

    /// "A read takes a page from dirty, else zero if the record covers it, else the cache, else the image."
    fn look_up(&mut self, image: &View, page: u64) -> Vec<u8> {
        if let Some(at) = place_of(&self.dirty, page) {
            return self.dirty[at].1.clone();
        }
        if covers(&self.record, page) {
            return vec![0; PAGE_LEN];
        }
        if let Some(at) = place_of(&self.cache, page) {
            return self.cache[at].1.clone();
        }
        if self.cache.len() == CACHE_PAGES {
            self.cache.remove(0);
        }
        self.cache.push((page, image.page(page)));
        self.used.1 = self.used.1.max(self.cache.len());
        self.cache.last().expect("a page").1.clone()
    }

    pub fn write(&mut self, image: &View, offset: u64, bytes: &[u8]) -> Tried<()> {
        if bytes.is_empty() {
            return Ok(());
        }
        let end = offset.checked_add(bytes.len() as u64).ok_or(OVERFLOW)?;
        if end > self.size {
            self.grow(image, end)?;
        }
        let whole = bytes.len() == PAGE_LEN && offset.is_multiple_of(PAGE);
        for (page, within, part) in parts(offset, bytes.len()) {
            let frame = self.make_dirty(image, page, !whole)?;
            frame[within..within + part.len()].copy_from_slice(&bytes[part]);
        }
        self.size = self.size.max(end);
        Ok(())
    }

    pub fn truncate(&mut self, image: &View, size: u64) -> Tried<()> {
        if size > self.size {
            self.grow(image, size)?;
        }
        self.push_run(size.div_ceil(PAGE), self.size.div_ceil(PAGE))?;
        self.size = size;
        let count = size.div_ceil(PAGE);
        self.dirty.retain(|(page, _)| *page < count);
        self.cache.retain(|(page, _)| *page < count);
        if !size.is_multiple_of(PAGE) {
            self.make_dirty(image, size / PAGE, true)?[(size % PAGE) as usize..].fill(0);
        }
        Ok(())
    }

    /// The size is for the caller to set.
    fn grow(&mut self, image: &View, size: u64) -> Tried<()> {
        let old = self.size;
        self.push_run(old.div_ceil(PAGE), size.div_ceil(PAGE))?;
        if !old.is_multiple_of(PAGE) {
            let end = (old / PAGE * PAGE).checked_add(PAGE).ok_or(OVERFLOW)?;
            let end = (end.min(size) - old / PAGE * PAGE) as usize;
            self.make_dirty(image, old / PAGE, true)?[(old % PAGE) as usize..end].fill(0);
        }
        if !size.is_multiple_of(PAGE) && size / PAGE != old / PAGE {
            self.make_dirty(image, size / PAGE, true)?[..(size % PAGE) as usize].fill(0);
        }
        Ok(())
    }

    fn push_run(&mut self, start: u64, end: u64) -> Tried<()> {
        if start >= end {
            return Ok(());
        }
        if self.record.len() == self.room.entries {
            return Err(RECORD_FULL);
        }
        self.record.push((start, end));
        Ok(())
    }

    fn make_dirty(&mut self, image: &View, page: u64, load: bool) -> Tried<&mut Vec<u8>> {
        let at = match place_of(&self.dirty, page) {
            Some(at) => at,
            None => {
                self.admit()?;
                let bytes = self.first_bytes(image, page, load);
                self.dirty.push((page, bytes));
                self.used.0 = self.used.0.max(self.dirty.len());
                self.dirty.len() - 1
            }
        };
        Ok(&mut self.dirty[at].1)
    }

    fn admit(&mut self) -> Tried<()> {
        let pages = self.dirty.len() as u64 + 1;
        let bytes = pages * PAGE;
        if let Some((max_pages, max_bytes)) = self.budget {
            if self.passed == 0 && pages > max_pages {
                self.passed = 1;
            } else if self.passed == 0 && bytes > max_bytes {
                self.passed = 2;
            }
            if self.passed != 0 {
                return Err(BUDGET);
            }
        }
        if self.dirty.len() == self.room.frames {
            return Err(FRAMES_FULL);
        }
        if self.budget.is_some() {
            self.peak = (self.peak.0.max(pages), self.peak.1.max(bytes));
        }
        Ok(())
    }

    /// "A new dirty page starts as zeros if covered, else as the image's page", from the cache if it is there.
    fn first_bytes(&mut self, image: &View, page: u64, load: bool) -> Vec<u8> {
        if !load || covers(&self.record, page) {
            return vec![0; PAGE_LEN];
        }
        match place_of(&self.cache, page) {
            Some(at) => self.cache.remove(at).1,
            None => image.page(page),
        }
    }
}

fn place_of(pages: &[Page], page: u64) -> Option<usize> {
    pages.iter().position(|(number, _)| *number == page)
}

pub fn covers(runs: &[Run], page: u64) -> bool {
    runs.iter()
        .any(|(start, end)| (*start..*end).contains(&page))
}

/// A range of the file cut at the ends of pages: page, place in it, part of the buffer.
pub fn parts(offset: u64, len: usize) -> Vec<(u64, usize, std::ops::Range<usize>)> {
    let mut parts = Vec::new();
    let mut done = 0;
    while done < len {
        let absolute = offset + done as u64;
        let within = (absolute % PAGE) as usize;
        let next = len.min(done + PAGE_LEN - within);
        parts.push((absolute / PAGE, within, done..next));
        done = next;
    }
    parts
}

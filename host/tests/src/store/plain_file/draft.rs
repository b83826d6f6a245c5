//! A draft: what an update makes of the file.

use super::Pages;
use crate::plan::{Input, Run, PAGE};

#[derive(PartialEq)]
pub struct Draft {
    pub size: u64,
    pub pages: Pages,
    dirty: Vec<u64>,
    record: Vec<Run>,
    pub spoiled: bool,
    begun: u64,
}

impl Draft {
    pub fn of(size: u64, pages: &Pages) -> Self {
        Self {
            size,
            pages: pages.clone(),
            dirty: Vec::new(),
            record: Vec::new(),
            spoiled: false,
            begun: size,
        }
    }

    fn touch(&mut self, page: u64) {
        if !self.dirty.contains(&page) {
            self.dirty.push(page);
        }
    }

    fn push(&mut self, start: u64, end: u64) {
        if start < end {
            self.record.push((start, end));
        }
    }

    /// "Growth records the pages from the old count to the new one and makes dirty a partial old last page, then a partial
    /// new last page unless the old size, as an offset, lies in it."
    fn grow(&mut self, size: u64) {
        let old = self.size;
        self.push(old.div_ceil(PAGE), size.div_ceil(PAGE));
        if !old.is_multiple_of(PAGE) {
            self.touch(old / PAGE);
        }
        if !size.is_multiple_of(PAGE) && size / PAGE != old / PAGE {
            self.touch(size / PAGE);
        }
    }

    /// "puts its bytes there, raising a smaller size to its end, zeros filling a gap; an empty one does nothing"
    pub fn write(&mut self, offset: u64, bytes: &[u8]) {
        if bytes.is_empty() {
            return;
        }
        let end = offset + bytes.len() as u64;
        if end > self.size {
            self.grow(end);
            self.size = end;
        }
        (offset / PAGE..=(end - 1) / PAGE).for_each(|page| self.touch(page));
        self.pages.write(offset, bytes);
    }

    /// "sets the size, cutting bytes or adding zeros"
    pub fn truncate(&mut self, size: u64) {
        if size > self.size {
            self.grow(size);
        }
        let count = size.div_ceil(PAGE);
        self.push(count, self.size.div_ceil(PAGE));
        self.dirty.retain(|page| *page < count);
        if size < self.size {
            self.pages.cut(size);
        }
        self.size = size;
        if !size.is_multiple_of(PAGE) {
            self.touch(size / PAGE);
        }
    }

    /// The runs after a commit to a file of this size, base and runs; or 31, 20 or 32.
    pub fn committed(
        &self,
        size: u64,
        base: u64,
        runs: &[Run],
        memory_len: u64,
    ) -> Result<Vec<Run>, u64> {
        if self.size == self.begun && self.dirty.is_empty() && self.record.is_empty() {
            return Ok(runs.to_vec());
        }
        let plan = Input {
            old_size: size,
            new_size: self.size,
            extents: runs.to_vec(),
            record: self.record.clone(),
            dirty: self.dirty.clone(),
        };
        let runs = plan.by_parts().map_err(|_| 31_u64)?;
        let count = self.size.div_ceil(PAGE);
        let below = self.dirty.iter().filter(|page| **page < count);
        let ends = below.map(|page| (u128::from(*page) + 1) * u128::from(PAGE));
        let end = ends.fold(u128::from(self.size), u128::max) + u128::from(base);
        if end > u128::from(u64::MAX) {
            return Err(20);
        }
        if end > u128::from(memory_len / 65_536 * 65_536) {
            return Err(32);
        }
        Ok(runs)
    }
}

//! Bytes of a file of any size: pages that are not there are zeros.

use crate::plan::PAGE;
use crate::store::update::parts;
use std::collections::BTreeMap;
use std::rc::Rc;

#[derive(Clone, Default)]
pub struct Pages(BTreeMap<u64, Rc<Vec<u8>>>);

static ZEROS: [u8; PAGE as usize] = [0; PAGE as usize];

impl PartialEq for Pages {
    fn eq(&self, other: &Self) -> bool {
        let mut pages = self.0.keys().chain(other.0.keys());
        pages.all(|page| self.page(page) == other.page(page))
    }
}

impl Pages {
    fn page(&self, page: &u64) -> &[u8] {
        self.0.get(page).map_or(&ZEROS, |bytes| bytes)
    }

    pub fn of(pages: impl Iterator<Item = Vec<u8>>) -> Self {
        Self((0..).zip(pages.map(Rc::new)).collect())
    }

    /// Zeros from the size on.
    pub fn read(&self, size: u64, offset: u64, len: usize) -> Vec<u8> {
        let mut bytes = vec![0; len];
        let below = size.saturating_sub(offset).min(len as u64) as usize;
        for (page, within, part) in parts(offset, below) {
            if let Some(held) = self.0.get(&page) {
                let end = within + part.len();
                bytes[part].copy_from_slice(&held[within..end]);
            }
        }
        bytes
    }

    pub fn write(&mut self, offset: u64, bytes: &[u8]) {
        for (page, within, part) in parts(offset, bytes.len()) {
            let zeros = || Rc::new(vec![0; PAGE as usize]);
            let held = Rc::make_mut(self.0.entry(page).or_insert_with(zeros));
            held[within..within + part.len()].copy_from_slice(&bytes[part]);
        }
    }

    /// Bytes from the size on become zeros.
    pub fn cut(&mut self, size: u64) {
        self.0.split_off(&size.div_ceil(PAGE));
        if let Some(last) = self.0.get_mut(&(size / PAGE)) {
            Rc::make_mut(last)[(size % PAGE) as usize..].fill(0);
        }
    }
}

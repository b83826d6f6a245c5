//! The store after document 01 and the requests of document 02, written apart from the library: every call's answer, and memory afterwards.

mod opening;
mod transfer;

pub use opening::fields_and_runs;

use super::outcome::Refused;
use super::update::{Update, View};
use super::{Buffers, Call, Outcome, Room};
use crate::block::{
    prefix_len, Block, BASE, COUNT, FIELDS, FLAGS, IMPORT, IMPORTING, LAYOUT, PAGE_COUNT,
    PAGE_TABLE, REFRESH, REFRESHING, SCHEMA, SIZE, STALE, SUM, TX,
};
use crate::plan::{numbers, Input, Run, PAGE};

pub const STABLE_PAGE: u64 = 65_536;

type Tried<T> = Result<T, Refused>;

pub struct Model {
    pub memory: Vec<u8>,
    pub count: u64,
    pub fields: [u64; FIELDS],
    pub runs: Vec<Run>,
    pub update: Option<Update>,
    /// What is lent beside memory, as far as the open update does not use it.
    pub buffers: Buffers,
    /// The work list that a call is lent, if it is lent one.
    pub work: Vec<u64>,
}

impl Model {
    pub fn call(&mut self, call: &Call) -> Outcome {
        let tried = match call {
            Call::BeginUpdate(budget) => self.begin(*budget),
            Call::FileSize => Ok(Outcome::value(self.size())),
            Call::ReadAt { offset, len } => Ok(self.read(*offset, *len)),
            Call::WriteAt { offset, bytes } => self.write(*offset, &bytes.make()),
            Call::Truncate(size) => self.truncate(*size),
            Call::CommitUpdate => self.end(true),
            Call::RollbackUpdate => self.end(false),
            Call::DirtyPage(page) => Ok(self.dirty_page(*page)),
            _ => self.transfer(call),
        };
        tried.unwrap_or_else(Outcome::refused)
    }

    /// The 42 numbers of the state.
    pub fn numbers(&self) -> Vec<u64> {
        let mut numbers = vec![self.count];
        numbers.extend(self.fields);
        numbers.push(u64::from(self.update.is_some()));
        numbers.extend(self.update.as_ref().map_or([0; 19], Update::numbers));
        numbers
    }

    pub fn size(&self) -> u64 {
        self.update
            .as_ref()
            .map_or(self.fields[SIZE], |update| update.size)
    }

    pub fn is_importing(&self) -> bool {
        self.fields[FLAGS] & IMPORTING != 0
    }

    /// Other buffers from now on; in an update they hold what it has.
    pub fn lend(&mut self, buffers: Buffers) {
        if let Some(update) = &mut self.update {
            update.room = buffers.room();
        }
        self.buffers = buffers;
    }

    fn room(&self) -> Room {
        self.buffers.room()
    }

    fn begin(&mut self, budget: super::Budget) -> Tried<Outcome> {
        if self.is_importing() {
            return Err((10, [0; 2]));
        }
        if self.update.is_some() {
            return Err((13, [0; 2]));
        }
        let size = self.fields[SIZE];
        self.update = Some(Update::begin(size, budget, self.room()));
        Ok(Outcome::value(size))
    }

    fn view(&self) -> View<'_> {
        View {
            size: self.fields[SIZE],
            base: self.fields[BASE],
            runs: &self.runs,
            memory: &self.memory,
        }
    }

    fn read(&mut self, offset: u64, len: usize) -> Outcome {
        let mut update = self.update.take();
        let image = self.view();
        let (full, bytes) = match &mut update {
            Some(update) => update.read(&image, offset, len),
            None => Update::begin(image.size, None, self.room()).read(&image, offset, len),
        };
        self.update = update;
        Outcome::with_bytes(u64::from(full), bytes)
    }

    /// "an empty direct write is still accepted" in an import
    fn write(&mut self, offset: u64, bytes: &[u8]) -> Tried<Outcome> {
        if !bytes.is_empty() {
            self.bar_in_import()?;
        }
        self.change(|update, image| update.write(image, offset, bytes))
    }

    fn truncate(&mut self, size: u64) -> Tried<Outcome> {
        self.bar_in_import()?;
        self.change(|update, image| update.truncate(image, size))
    }

    /// Of a direct call: "It refuses with 10, right after 35 and, like 35, with nothing changed, lent frames and lists
    /// included" (02, W-203).
    fn bar_in_import(&self) -> Tried<()> {
        if self.update.is_none() && self.is_importing() {
            return Err((10, [0; 2]));
        }
        Ok(())
    }

    /// "A direct call, accepted, is a begin, itself and a commit."
    fn change(
        &mut self,
        change: impl FnOnce(&mut Update, &View) -> Result<(), u64>,
    ) -> Tried<Outcome> {
        self.work.fill(0);
        if let Some(mut update) = self.update.take() {
            let tried = change(&mut update, &self.view());
            self.update = Some(update);
            return tried
                .map(|()| Outcome::done())
                .map_err(|number| (number, [0; 2]));
        }
        let mut direct = Update::begin(self.fields[SIZE], None, self.room());
        let tried = change(&mut direct, &self.view()).map_err(|number| (number, [0; 2]));
        self.buffers.wipe();
        tried?;
        self.commit(&direct, false)?;
        Ok(Outcome::done())
    }

    /// A rollback is lent no work list.
    fn end(&mut self, commit: bool) -> Tried<Outcome> {
        if commit {
            self.work.fill(0);
        }
        let Some(update) = self.update.take() else {
            return Ok(Outcome::done());
        };
        self.buffers.wipe();
        if commit {
            self.commit(&update, true)?;
        }
        Ok(Outcome::done())
    }

    fn commit(&mut self, update: &Update, advance: bool) -> Tried<()> {
        if update.is_empty() {
            return Ok(());
        }
        let below = update.size.div_ceil(PAGE);
        let plan = Input {
            old_size: self.fields[SIZE],
            new_size: update.size,
            extents: self.runs.clone(),
            record: update.record.clone(),
            dirty: update.dirty.iter().map(|(page, _)| *page).collect(),
        };
        let runs = plan.by_parts().map_err(|_| (31, [0; 2]))?;
        let base = self.fields[BASE];
        let mut end = u128::from(base) + u128::from(update.size);
        let pages: Vec<_> = update
            .dirty
            .iter()
            .filter(|(page, _)| *page < below)
            .collect();
        for (page, _) in &pages {
            end = end.max(u128::from(base) + (u128::from(*page) + 1) * u128::from(PAGE));
        }
        let end = u64::try_from(end).map_err(|_| (20, [0; 2]))?;
        self.grow(end)?;
        for (page, bytes) in pages {
            let at = (base + page * PAGE) as usize;
            self.memory[at..at + bytes.len()].copy_from_slice(bytes);
        }
        self.runs = runs;
        self.set_image(base, update.size);
        if advance {
            self.fields[TX] = self.fields[TX].saturating_add(1);
            self.fields[FLAGS] = (self.fields[FLAGS] | STALE) & !REFRESHING;
            self.fields[REFRESH].fill(0);
        }
        self.store();
        Ok(())
    }

    fn set_image(&mut self, base: u64, size: u64) {
        self.fields[SIZE] = size;
        self.fields[BASE] = base;
        self.fields[PAGE_TABLE] = 0;
        self.fields[PAGE_COUNT] = size.div_ceil(PAGE);
        self.fields[LAYOUT] = 8;
    }

    /// "Growth rounds the missing bytes up to stable pages and zero-fills them."
    fn grow(&mut self, end: u64) -> Tried<()> {
        let required = end.div_ceil(STABLE_PAGE);
        if required <= self.count {
            return Ok(());
        }
        if required > self.memory.len() as u64 / STABLE_PAGE {
            return Err((32, [self.count, required]));
        }
        let grown = (self.count * STABLE_PAGE) as usize..(required * STABLE_PAGE) as usize;
        self.memory[grown].fill(0);
        self.count = required;
        Ok(())
    }

    /// The superblock of these fields and runs.
    fn store(&mut self) {
        self.fields[COUNT] = self.runs.len() as u64;
        let block = Block {
            fields: self.fields,
            runs: numbers(&self.runs),
        };
        let bytes = block.sealed();
        let len = prefix_len(self.fields[COUNT]);
        self.memory[..len].copy_from_slice(&bytes[..len]);
        self.fields = opening::fields_in(&self.memory);
    }

    fn dirty_page(&self, page: u64) -> Outcome {
        let dirty = self.update.as_ref().map_or(&[][..], |update| &update.dirty);
        match dirty.iter().find(|(number, _)| *number == page) {
            Some((_, bytes)) => Outcome::with_bytes(PAGE, bytes.clone()),
            None => Outcome::done(),
        }
    }
}

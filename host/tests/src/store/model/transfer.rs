//! Imports, export, and the checksum with its refresh.

use super::*;
use crate::block::fnv1a64;

impl Model {
    pub(super) fn transfer(&mut self, call: &Call) -> Tried<Outcome> {
        if self.update.is_some() {
            return Err((12, [0; 2]));
        }
        match call {
            Call::BeginImport { total, expected } => self.begin_import(*total, *expected),
            Call::ImportChunk { offset, bytes } => self.chunk(*offset, &bytes.make()),
            Call::FinishImport => self.finish(),
            Call::CancelImport => {
                self.require_import()?;
                self.close_import();
                Ok(Outcome::done())
            }
            Call::ExportChunk { offset, len } => Ok(self.export(*offset, *len)),
            Call::Checksum => Ok(Outcome::value(fnv1a64(&self.file()))),
            Call::RefreshChecksum => {
                let sum = fnv1a64(&self.file());
                self.refreshed(sum);
                Ok(Outcome::value(sum))
            }
            Call::RefreshChecksumChunk(n) => self.refresh_step(*n),
            _ => unreachable!("a call of this module"),
        }
    }

    fn require_import(&self) -> Tried<()> {
        if self.is_importing() {
            return Ok(());
        }
        Err((11, [0; 2]))
    }

    fn begin_import(&mut self, total: u64, expected: u64) -> Tried<Outcome> {
        if self.is_importing() {
            return Err((10, [0; 2]));
        }
        let base = self.count * STABLE_PAGE;
        base.checked_add(total).ok_or((20, [0; 2]))?;
        self.fields[FLAGS] = (self.fields[FLAGS] | IMPORTING) & !REFRESHING;
        self.fields[REFRESH].fill(0);
        self.fields[IMPORT].copy_from_slice(&[expected, 0, total, base]);
        self.store();
        Ok(Outcome::done())
    }

    fn import(&self) -> [u64; 4] {
        self.fields[IMPORT].try_into().expect("four fields")
    }

    fn chunk(&mut self, offset: u64, bytes: &[u8]) -> Tried<Outcome> {
        self.require_import()?;
        let [_, written, total, base] = self.import();
        if offset != written {
            return Err((21, [0; 2]));
        }
        let end = offset.checked_add(bytes.len() as u64).ok_or((20, [0; 2]))?;
        if end > total {
            return Err((22, [0; 2]));
        }
        if !bytes.is_empty() {
            self.grow(base + end)?;
            let at = (base + offset) as usize;
            self.memory[at..at + bytes.len()].copy_from_slice(bytes);
        }
        self.fields[IMPORT][1] = end;
        self.store();
        Ok(Outcome::done())
    }

    fn finish(&mut self) -> Tried<Outcome> {
        self.require_import()?;
        let [expected, written, total, base] = self.import();
        if written != total {
            return Err((23, [0; 2]));
        }
        let from = base as usize;
        let actual = fnv1a64(&self.memory[from..from + total as usize]);
        if actual != expected {
            self.close_import();
            return Err((24, [expected, actual]));
        }
        self.runs.clear();
        self.set_image(base, total);
        self.fields[SCHEMA] = 0;
        self.fields[IMPORT].fill(0);
        self.fields[FLAGS] &= !IMPORTING;
        self.refreshed(actual);
        Ok(Outcome::done())
    }

    pub(super) fn close_import(&mut self) {
        self.fields[IMPORT].fill(0);
        self.fields[FLAGS] &= !IMPORTING;
        self.store();
    }

    /// All bytes of the image.
    fn file(&self) -> Vec<u8> {
        let image = self.view();
        let pages: Vec<Vec<u8>> = (0..image.size.div_ceil(PAGE))
            .map(|page| image.page(page))
            .collect();
        let mut bytes = pages.concat();
        bytes.truncate(image.size as usize);
        bytes
    }

    fn export(&self, offset: u64, len: usize) -> Outcome {
        let image = self.view();
        let len = image.size.saturating_sub(offset).min(len as u64);
        let (_, bytes) =
            Update::begin(image.size, None, self.room()).read(&image, offset, len as usize);
        Outcome::with_bytes(len, bytes)
    }

    /// The checksum is stored, and no refresh is under way.
    fn refreshed(&mut self, sum: u64) {
        self.fields[SUM] = sum;
        self.fields[FLAGS] &= !(STALE | REFRESHING);
        self.fields[REFRESH].fill(0);
        self.store();
    }

    fn refresh_step(&mut self, n: u64) -> Tried<Outcome> {
        if n == 0 {
            return Err((25, [0; 2]));
        }
        if self.is_importing() {
            return Err((10, [0; 2]));
        }
        let [mut from, mut hash, tx] = self.fields[REFRESH].try_into().expect("three fields");
        if self.fields[FLAGS] & REFRESHING == 0 || tx != self.fields[TX] {
            (from, hash) = (0, fnv1a64(&[]));
        }
        let size = self.fields[SIZE];
        let end = size.min(from.saturating_add(n)).max(from);
        if from < end {
            let bytes = &self.file()[from as usize..end as usize];
            let step = |hash: u64, byte: &u8| (hash ^ u64::from(*byte)).wrapping_mul(PRIME);
            hash = bytes.iter().fold(hash, step);
        }
        if end == size {
            self.refreshed(hash);
        } else {
            self.fields[FLAGS] |= REFRESHING;
            let tx = self.fields[TX];
            self.fields[REFRESH].copy_from_slice(&[end, hash, tx]);
            self.store();
        }
        let complete = u64::from(end == size);
        Ok(Outcome::accepted([complete, hash, end, size]))
    }
}

const PRIME: u64 = 0x100_0000_01b3;

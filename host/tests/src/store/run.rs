//! One store in four shapes, held to be equal after every call.

use super::act::{Act, Needs};
use super::choose::Seen;
use super::library::work_noise;
use super::update::{Page, Update};
use super::{Buffers, Call, Library, Made, Model, Original, Outcome, PlainFile, PAGE_LEN};
use crate::block::{self, BASE, FLAGS, IMPORT, IMPORTING};

const STABLE_PAGE: usize = 65_536;
const ADDED: [u64; 2] = [33, 34];
/// The open update's numbers in the state.
const UPDATE: usize = 23;

pub struct Run {
    pub library: Library,
    model: Model,
    file: PlainFile,
    /// None from an added refusal in an update on, until it is over.
    original: Option<Original>,
    /// How many answers were the original's too.
    pub compared: u64,
    /// How many whole caches and freed frames there were.
    pub full_caches: u64,
    pub freed: u64,
    /// How many imports an opening has closed.
    pub closed: u64,
    /// How many direct calls in an import the original was not asked for.
    pub left_out: u64,
    /// How often the buffers were filled with noise.
    fillings: u64,
}

type Held<T> = Result<T, String>;

fn same<T: PartialEq + std::fmt::Debug>(what: &str, one: T, other: T) -> Held<()> {
    if one == other {
        return Ok(());
    }
    Err(format!("{what}: {one:?}, expected {other:?}"))
}

fn hold(holds: bool, what: &str) -> Held<()> {
    if holds {
        return Ok(());
    }
    Err(what.to_string())
}

impl Run {
    /// Opens the image; the answer, and the run if it was accepted.
    pub fn open(made: &Made, buffers: Buffers) -> Held<(Outcome, Option<Self>)> {
        let Made { memory, count } = made.clone();
        let (library, answer) = Library::open(memory.clone(), count, buffers.clone());
        let model = Model::open(memory, count, buffers);
        let in_use = &made.memory[..count as usize * STABLE_PAGE];
        let original = oracle::AVAILABLE.then(|| Original::open(in_use, made.ceiling()));
        if let Some(original) = &original {
            let other = original.as_ref().err().cloned();
            let other = other.unwrap_or_else(Outcome::done);
            if answer.number != 4 {
                same("open of the original", &answer, &other)?;
            }
        }
        let model = match model {
            Err(refused) => {
                same("open", &answer, &Outcome::refused(refused))?;
                let mut numbers = vec![0; 42];
                numbers[0] = count;
                same("state of no image", library.numbers(), numbers)?;
                hold(library.memory == made.memory, "memory at a refused open")?;
                return Ok((answer, None));
            }
            Ok(model) => model,
        };
        same("open", &answer, &Outcome::done())?;
        let file = PlainFile::in_memory(&library.memory);
        let mut run = Self {
            library,
            model,
            file,
            original: original.and_then(Result::ok),
            compared: 0,
            full_caches: 0,
            freed: 0,
            closed: 0,
            left_out: 0,
            fillings: 0,
        };
        run.check_opened(in_use)?;
        Ok((answer, Some(run)))
    }

    /// After an opening of memory that had these stable pages in use, none for a fresh image. "An import no longer outlives the
    /// opening of the image": the file is the one that was there, and memory changed only where the closing of an import
    /// changes it.
    fn check_opened(&mut self, before: &[u8]) -> Held<()> {
        self.check()?;
        self.check_original()?;
        let after = &self.library.memory[..];
        hold(!block::is_importing(after), "an import is open")?;
        if before.is_empty() {
            return Ok(());
        }
        let there = PlainFile::in_memory(before);
        hold(there == PlainFile::in_memory(after), "the file at opening")?;
        let mut expected = before.to_vec();
        if block::is_importing(before) {
            self.closed += 1;
            block::close_import(&mut expected);
        }
        hold(after[..before.len()] == expected, "memory at opening")
    }

    pub fn act(&mut self, act: &Act) -> Held<Option<Outcome>> {
        match act {
            Act::Call(call) => self.call(call).map(Some),
            Act::Lend { seed, room } => {
                // what is lent no longer is not seen again
                self.check()?;
                let buffers = Buffers::noise(*seed, *room);
                let buffers = match self.model.update {
                    Some(_) => self.library.buffers.longer(&buffers),
                    None => buffers,
                };
                self.lend(buffers);
                Ok(None)
            }
            Act::Reopen => match self.model.update {
                Some(_) => Ok(None),
                None => self.reopen().map(Some),
            },
            Act::Short { call, cut } => {
                if cut.is_short(call, &self.needs()) {
                    self.lend_noise(call)?;
                    self.library.refuses(call, *cut)?;
                    self.check()?;
                }
                Ok(None)
            }
        }
    }

    /// What a list leaves in memory can be opened, and gives the state that there was, but for an import, which is closed.
    fn reopen(&mut self) -> Held<Outcome> {
        self.check()?;
        let (memory, count) = (self.library.memory.clone(), self.model.count);
        let (library, outcome) = Library::open(memory.clone(), count, self.library.buffers.clone());
        same("opened again", &outcome, &Outcome::done())?;
        if self.original.is_some() {
            self.open_original()?;
        }
        if self.model.is_importing() {
            let model = Model::open(memory.clone(), count, self.model.buffers.clone());
            self.model = model.map_err(|_| "no image")?;
        }
        self.library = library;
        self.check_opened(&memory[..count as usize * STABLE_PAGE])?;
        Ok(outcome)
    }

    fn open_original(&mut self) -> Held<()> {
        let in_use = &self.library.memory[..self.model.count as usize * STABLE_PAGE];
        let ceiling = (self.library.memory.len() / STABLE_PAGE) as u64;
        self.original = Some(Original::open(in_use, ceiling).map_err(|_| "no image")?);
        Ok(())
    }

    /// The places that an update does not use are the model's to know.
    pub fn lend(&mut self, buffers: Buffers) {
        self.model.lend(buffers.clone());
        self.library.lend(buffers);
    }

    /// With no update open the buffers have nothing to keep. They get noise for a call that is lent them to change, or that begins an update: in the
    /// zeros that the end of an update leaves it is not seen whether a call fills them with zeros or leaves them.
    fn lend_noise(&mut self, call: &Call) -> Held<()> {
        let begins = matches!(call, Call::BeginUpdate(_));
        if self.model.update.is_some() || !(begins || Changes::of(call).frames) {
            return Ok(());
        }
        // what is filled now is not seen again
        self.check_buffers(Changes::ALL)?;
        self.fillings += 1;
        self.library.buffers.fill_with_noise(self.fillings);
        self.model.buffers.fill_with_noise(self.fillings);
        Ok(())
    }

    fn call(&mut self, call: &Call) -> Held<Outcome> {
        let before = self.dirty().len();
        let update = self.model.update.is_some();
        let left_out = self.leaves_out(call);
        self.lend_noise(call)?;
        self.model.work = work_noise(self.library.work.len());
        let outcome = self.library.call(call)?;
        let modelled = self.model.call(call);
        same("answer", &outcome, &modelled)?;
        self.check_lent(Changes::of(call))?;
        hold(self.library.work == self.model.work, "work list")?;
        self.file.feed(call, &outcome, &self.library.memory)?;
        if left_out {
            self.left_out += 1;
            self.check_original()?;
        } else {
            self.ask_original(call, &outcome, update)?;
        }
        if let Some(update) = &self.model.update {
            self.full_caches += u64::from(update.cache.len() == 8);
            self.freed += before.saturating_sub(update.dirty.len()) as u64;
        }
        Ok(outcome)
    }

    /// "Comparison with the Rust leaves out such calls": direct ones in an import, but for an empty write. The original makes them.
    pub fn leaves_out(&self, call: &Call) -> bool {
        let state = self.library.numbers();
        let direct = call.is_change() && state[UPDATE - 1] == 0;
        direct && state[1 + FLAGS] & IMPORTING != 0
    }

    fn ask_original(&mut self, call: &Call, outcome: &Outcome, update: bool) -> Held<()> {
        if ADDED.contains(&outcome.number) {
            if update {
                self.original = None;
            }
            return Ok(());
        }
        if matches!(call, Call::DirtyPage(_)) {
            return Ok(());
        }
        if let Some(original) = &mut self.original {
            if matches!(call, Call::RollbackUpdate) {
                original.take_draft();
            } else {
                same("answer, and the original's", outcome, &original.call(call))?;
                self.compared += 1;
            }
            // memory stays in an update, as was compared with the model's
            return match self.model.update {
                None if Changes::of(call).memory => self.check_original(),
                _ => Ok(()),
            };
        }
        if oracle::AVAILABLE && self.model.update.is_none() {
            self.open_original()?;
        }
        Ok(())
    }

    /// Memory, and the open update's numbers as far as the original tells them.
    fn check_original(&self) -> Held<()> {
        let Some(original) = &self.original else {
            return Ok(());
        };
        same("count of the original", self.model.count, original.count())?;
        let in_use = &self.library.memory[..self.model.count as usize * STABLE_PAGE];
        match original.difference(in_use) {
            Some(at) => Err(format!("the original's memory at {at}")),
            None => Ok(()),
        }
    }

    /// What the original lets be seen of its update, which ends by it; to be called before a rollback.
    pub fn compare_drafts(&mut self) -> Held<()> {
        let (Some(original), Some(update)) = (&mut self.original, &self.model.update) else {
            return Ok(());
        };
        let Some((stats, dirty)) = original.stats() else {
            return Err("the original has no update".into());
        };
        let ours = [update.passed, update.peak.0, update.peak.1];
        same("budget of the original", ours, stats)?;
        same(
            "dirty pages of the original",
            self.library.numbers()[UPDATE + 2],
            dirty,
        )?;
        let draft = original.take_draft().ok_or("the original has no update")?;
        same("size of the original", update.size, draft.size)?;
        same("record of the original", &update.record, &draft.record)?;
        hold(
            update.dirty == draft.dirty_pages,
            "the original's dirty pages",
        )
    }

    fn dirty(&self) -> &[Page] {
        self.model
            .update
            .as_ref()
            .map_or(&[], |update| &update.dirty)
    }

    /// Every number and every byte that the library holds, against the model.
    pub fn check(&self) -> Held<()> {
        self.check_lent(Changes::ALL)
    }

    /// The same of what a call may change. What is lent as a constant stays to be compared after the next that may.
    fn check_lent(&self, changes: Changes) -> Held<()> {
        let Self { library, model, .. } = self;
        same("state", library.numbers(), model.numbers())?;
        if changes.memory {
            hold(library.memory == model.memory, "memory")?;
        }
        self.check_buffers(changes)
    }

    fn check_buffers(&self, changes: Changes) -> Held<()> {
        let (now, was) = (&self.library.buffers, &self.model.buffers);
        match &self.model.update {
            None => check_idle(now, was, changes),
            Some(update) => check_used(now, was, update, changes),
        }
    }

    pub fn needs(&self) -> Needs {
        let numbers = self.library.numbers();
        let buffers = &self.library.buffers;
        Needs {
            count: numbers[0],
            updating: numbers[UPDATE - 1] != 0,
            dirty: numbers[UPDATE + 2] as usize,
            recorded: numbers[UPDATE + 3] as usize,
            frames: (buffers.frames.len() / PAGE_LEN, buffers.numbers.len()),
        }
    }

    pub fn seen(&self) -> Seen {
        let fields = &self.model.fields;
        let [_, written, total, _] = fields[IMPORT].try_into().expect("four fields");
        Seen {
            size: self.model.size(),
            base: fields[BASE],
            count: self.model.count,
            ceiling: (self.library.memory.len() / STABLE_PAGE) as u64,
            updating: self.model.update.is_some(),
            importing: self.model.is_importing(),
            import: (written, total),
            dirty: self.dirty().iter().map(|(page, _)| *page).collect(),
            runs: self.model.runs.len(),
            needs: self.needs(),
            work_len: self.library.work.len(),
        }
    }
}

/// The slices that a call is lent to change.
#[derive(Clone, Copy)]
struct Changes {
    memory: bool,
    /// Frames, page numbers and record.
    frames: bool,
    clean: bool,
}

impl Changes {
    const ALL: Self = Self {
        memory: true,
        frames: true,
        clean: true,
    };

    fn of(call: &Call) -> Self {
        let (memory, frames, clean) = match call {
            Call::WriteAt { .. } | Call::Truncate(_) | Call::CommitUpdate => (true, true, true),
            Call::RollbackUpdate => (false, true, true),
            Call::ReadAt { .. } => (false, false, true),
            Call::BeginUpdate(_)
            | Call::FileSize
            | Call::ExportChunk { .. }
            | Call::Checksum
            | Call::DirtyPage(_) => (false, false, false),
            Call::BeginImport { .. }
            | Call::ImportChunk { .. }
            | Call::FinishImport
            | Call::CancelImport
            | Call::RefreshChecksum
            | Call::RefreshChecksumChunk(_) => (true, false, false),
        };
        Self {
            memory,
            frames,
            clean,
        }
    }
}

/// With no update open.
fn check_idle(now: &Buffers, was: &Buffers, changes: Changes) -> Held<()> {
    if changes.clean {
        hold(now.clean == was.clean, "clean frames")?;
    }
    if !changes.frames {
        return Ok(());
    }
    hold(now.frames == was.frames, "frames")?;
    same("page numbers", &now.numbers, &was.numbers)?;
    same("record", &now.record, &was.record)
}

/// "A frame or clean frame that is freed is used again: later pages move up, and the places left over become zeros." What
/// was never used is as it was lent.
fn check_used(now: &Buffers, was: &Buffers, update: &Update, changes: Changes) -> Held<()> {
    let pages = |pages: &[Page], used: usize, now: &[u8], was: &[u8], what: &str| {
        for ((_, bytes), frame) in pages.iter().zip(now.chunks(PAGE_LEN)) {
            hold(frame == bytes, what)?;
        }
        let (left, unused) = (pages.len() * PAGE_LEN, used * PAGE_LEN);
        hold(now[left..unused].iter().all(|byte| *byte == 0), what)?;
        hold(now[unused..] == was[unused..], what)
    };
    let (frames, clean) = update.used;
    if changes.clean {
        pages(&update.cache, clean, &now.clean, &was.clean, "clean frames")?;
    }
    if !changes.frames {
        return Ok(());
    }
    pages(&update.dirty, frames, &now.frames, &was.frames, "frames")?;
    let mut numbers = was.numbers.clone();
    numbers[..frames].fill(0);
    for (place, (page, _)) in numbers.iter_mut().zip(&update.dirty) {
        *place = *page;
    }
    same("page numbers", &now.numbers, &numbers)?;
    let mut record = was.record.clone();
    for (place, (start, end)) in record.chunks_exact_mut(2).zip(&update.record) {
        place.copy_from_slice(&[*start, *end]);
    }
    same("record", &now.record, &record)
}

//! The next call, drawn by where the store stands.

use super::act::{Act, Cut, Needs};
use super::place::{length, near, near_one, Around};
use super::{Budget, Bytes, Call, Room, PAGE_LEN};
use crate::block::fnv1a64;
use crate::plan::PAGE;
use crate::prng::Prng;

const STABLE_PAGE: u64 = 65_536;
const SMALL_IMPORT: u64 = 200_000;
const MANY_RUNS: usize = 1_000;

/// What the choice goes by.
pub struct Seen {
    pub size: u64,
    pub base: u64,
    pub count: u64,
    pub ceiling: u64,
    pub updating: bool,
    pub importing: bool,
    /// Of an import: bytes written, total.
    pub import: (u64, u64),
    pub dirty: Vec<u64>,
    /// Of the image.
    pub runs: usize,
    pub needs: Needs,
    pub work_len: usize,
}

/// What a list has most of.
#[derive(Clone, Copy, Debug)]
enum Mood {
    Updates,
    Direct,
    Imports,
    Refreshes,
    /// Reads all over the file, so that clean pages come and go.
    Reads,
}

pub struct Chooser {
    prng: Prng,
    mood: Mood,
    /// The bytes of the import.
    import_seed: u64,
    /// Whether all of a list is to be within the original's domain.
    roomy: bool,
    /// Calls that come next, the last first.
    script: Vec<Call>,
}

impl Chooser {
    pub fn new(seed: u64, roomy: bool) -> Self {
        let mut prng = Prng::new(seed);
        let moods = [
            Mood::Updates,
            Mood::Updates,
            Mood::Direct,
            Mood::Imports,
            Mood::Refreshes,
            Mood::Reads,
        ];
        let mood = prng.pick(&moods);
        Self {
            prng,
            mood,
            import_seed: 1,
            roomy,
            script: Vec::new(),
        }
    }

    /// Mostly few frames, since all of them become zeros with every direct call.
    pub fn room(&mut self) -> Room {
        if self.roomy {
            return Room {
                frames: 24,
                entries: 60,
            };
        }
        Room {
            frames: self.prng.pick(&[0, 1, 2, 3, 4, 6, 8, 16]),
            entries: self.prng.pick(&[0, 1, 2, 3, 8, 20, 40]),
        }
    }

    pub fn next(&mut self, seen: &Seen) -> Act {
        if self.prng.below(if seen.updating { 60 } else { 24 }) == 0 {
            let seed = self.prng.number();
            let room = self.room();
            return Act::Lend { seed, room };
        }
        let seldom = if seen.importing { 20 } else { 60 };
        if !seen.updating && self.prng.below(seldom) == 0 {
            return Act::Reopen;
        }
        let call = self.call(seen);
        if self.prng.below(20) == 0 {
            let cut = self.cut(seen);
            return Act::Short { call, cut };
        }
        Act::Call(call)
    }

    fn call(&mut self, seen: &Seen) -> Call {
        if let Some(call) = self.script.pop() {
            return call;
        }
        if seen.runs > MANY_RUNS && !seen.importing && self.prng.below(8) == 0 {
            return self.there_and_back(seen);
        }
        if seen.updating {
            return self.in_update(seen);
        }
        if seen.importing {
            return self.in_import(seen);
        }
        let part = self.prng.below(100);
        match (self.mood, part) {
            (Mood::Updates | Mood::Reads, 0..=59) => self.begin(),
            (Mood::Direct, 0..=59) => self.change(seen),
            (Mood::Imports, 0..=39) => self.begin_import(seen),
            (Mood::Refreshes, 0..=59) => self.refresh_step(seen),
            (_, 60..=69) => self.begin(),
            (_, 70..=79) => self.change(seen),
            (_, 80..=84) => self.refresh_step(seen),
            _ => self.any(seen),
        }
    }

    fn in_update(&mut self, seen: &Seen) -> Call {
        if matches!(self.mood, Mood::Reads) && self.prng.below(8) > 0 {
            let offset = self.prng.below(seen.size.clamp(1, 20 * PAGE));
            let len = length(&mut self.prng);
            return Call::ReadAt { offset, len };
        }
        if seen.runs > MANY_RUNS && self.prng.below(3) > 0 {
            return self.among_many_runs();
        }
        match self.prng.below(100) {
            0..=24 => self.read(seen),
            25..=77 => self.change(seen),
            78..=85 => Call::CommitUpdate,
            86..=89 => Call::RollbackUpdate,
            90..=93 => Call::FileSize,
            94..=96 => self.dirty_page(seen),
            _ => self.any(seen),
        }
    }

    /// Whole pages come and go, so that the runs are many for a while.
    fn among_many_runs(&mut self) -> Call {
        let offset = self.prng.below(12) * PAGE;
        match self.prng.below(12) {
            0..=6 => Call::Truncate(offset),
            7 => self.write(offset, PAGE_LEN),
            8..=9 => self.write(offset, 5 * PAGE_LEN + 5),
            _ => Call::CommitUpdate,
        }
    }

    /// A page more and back; then a long write, which may be refused once its last page is dirty: that lies past the end
    /// then, and what it recorded joins the runs again.
    fn there_and_back(&mut self, seen: &Seen) -> Call {
        let pages = (seen.size / PAGE).min(1 << 40);
        let more = 1 + self.prng.below(2);
        let long = self.write(pages * PAGE, 5 * PAGE_LEN + 5);
        let back = Call::Truncate(pages * PAGE);
        let there = Call::Truncate((pages + more) * PAGE);
        self.script = vec![Call::CommitUpdate, long, back, there];
        if seen.updating {
            self.script.pop();
            return there;
        }
        Call::BeginUpdate(None)
    }

    fn write(&mut self, offset: u64, len: usize) -> Call {
        let seed = self.prng.below(1 << 20);
        let start = 0;
        let bytes = Bytes { seed, start, len };
        Call::WriteAt { offset, bytes }
    }

    fn in_import(&mut self, seen: &Seen) -> Call {
        match self.prng.below(100) {
            0..=33 => self.chunk(seen),
            34..=47 => Call::FinishImport,
            48..=55 => Call::CancelImport,
            56..=69 => self.direct_in_import(seen),
            70..=79 => self.read(seen),
            _ => self.any(seen),
        }
    }

    /// Refused, whatever the place, also where nothing would change or another refusal would be met; an empty write is
    /// not.
    fn direct_in_import(&mut self, seen: &Seen) -> Call {
        match self.prng.below(10) {
            0..=1 => {
                let offset = self.place(seen);
                self.write(offset, 0)
            }
            2 => {
                let back = self.prng.below(3);
                self.write(u64::MAX - back, 1 + back as usize)
            }
            3 => Call::Truncate(seen.size),
            4 => Call::Truncate(self.prng.pick(&[0, u64::MAX])),
            _ => self.change(seen),
        }
    }

    fn any(&mut self, seen: &Seen) -> Call {
        match self.prng.below(19) {
            0..=1 => self.begin(),
            2 => Call::FileSize,
            3..=4 => self.read(seen),
            5 => self.change(seen),
            6 => Call::CommitUpdate,
            7 => Call::RollbackUpdate,
            8 => self.begin_import(seen),
            9 => self.chunk(seen),
            10 => Call::FinishImport,
            11 => Call::CancelImport,
            12..=13 => {
                let offset = self.place(seen);
                let len = length(&mut self.prng);
                Call::ExportChunk { offset, len }
            }
            14 => Call::Checksum,
            15 => Call::RefreshChecksum,
            16..=17 => self.refresh_step(seen),
            _ => self.dirty_page(seen),
        }
    }

    fn around<'a>(&self, seen: &'a Seen) -> Around<'a> {
        let end = |pages: u64| (pages * STABLE_PAGE).saturating_sub(seen.base);
        Around {
            size: seen.size,
            dirty: &seen.dirty,
            ends: [end(seen.count), end(seen.ceiling)],
            base: seen.base,
        }
    }

    fn place(&mut self, seen: &Seen) -> u64 {
        self.around(seen).place(&mut self.prng)
    }

    /// A budget of a few pages, or none.
    fn begin(&mut self) -> Call {
        let prng = &mut self.prng;
        let pages = prng.below(5);
        let bytes = PAGE * prng.below(5) + prng.pick(&[0, 0, 1, PAGE - 1]);
        let budget: Budget = match prng.below(12) {
            0 => Some((pages, u64::MAX)),
            1 => Some((u64::MAX, bytes)),
            2 => Some((pages, bytes)),
            3 => Some((prng.below(30), u64::MAX)),
            _ => None,
        };
        Call::BeginUpdate(budget)
    }

    fn read(&mut self, seen: &Seen) -> Call {
        let offset = self.place(seen);
        let len = length(&mut self.prng);
        Call::ReadAt { offset, len }
    }

    fn change(&mut self, seen: &Seen) -> Call {
        if self.prng.below(3) == 0 {
            return Call::Truncate(self.place(seen));
        }
        let (offset, len) = self.around(seen).written(&mut self.prng);
        self.write(offset, len)
    }

    fn dirty_page(&mut self, seen: &Seen) -> Call {
        let any = self.prng.below(9);
        match seen.dirty.len() {
            0 => Call::DirtyPage(any),
            _ => Call::DirtyPage(
                *[any, self.prng.pick(&seen.dirty)]
                    .iter()
                    .max()
                    .expect("two"),
            ),
        }
    }

    fn refresh_step(&mut self, seen: &Seen) -> Call {
        let size = near(&mut self.prng, seen.size);
        let some = self.prng.below(40_000);
        Call::RefreshChecksumChunk(
            self.prng
                .pick(&[0, 1, PAGE, some, some, some, size, u64::MAX]),
        )
    }

    fn begin_import(&mut self, seen: &Seen) -> Call {
        let prng = &mut self.prng;
        let base = seen.count * STABLE_PAGE;
        let room = (seen.ceiling - seen.count) * STABLE_PAGE;
        let total = match prng.below(8) {
            0 => 0,
            1 => near_one(prng, &[room, STABLE_PAGE]),
            2 => (u64::MAX - base).wrapping_add(prng.pick(&[0, 1, u64::MAX])),
            3 => prng.number(),
            _ => prng.below(3 * PAGE),
        };
        self.import_seed = 1 + prng.below(1 << 20);
        let bytes = Bytes {
            seed: self.import_seed,
            start: 0,
            len: total as usize,
        };
        let expected = match prng.below(4) {
            0 => prng.number(),
            _ if total > SMALL_IMPORT => 5,
            _ => fnv1a64(&bytes.make()),
        };
        Call::BeginImport { total, expected }
    }

    fn chunk(&mut self, seen: &Seen) -> Call {
        let (written, total) = seen.import;
        let prng = &mut self.prng;
        let offset = match prng.below(10) {
            0 => prng.pick(&[0, written + 1, written.wrapping_sub(1), total, u64::MAX]),
            _ => written,
        };
        let left = total.saturating_sub(written).min(SMALL_IMPORT);
        let len = match prng.below(6) {
            0 => left + 1,
            1 => length(prng) as u64,
            2 => 0,
            3 => prng.below(left + 1),
            _ => left,
        };
        let bytes = Bytes {
            seed: self.import_seed,
            start: written.min(1 << 20) as usize,
            len: len as usize,
        };
        Call::ImportChunk { offset, bytes }
    }

    /// A length that is too short, if the call is lent that slice.
    fn cut(&mut self, seen: &Seen) -> Cut {
        let prng = &mut self.prng;
        let mut below = |len: usize| {
            let any = prng.below(len.max(1) as u64) as usize;
            prng.pick(&[len.saturating_sub(1), any])
        };
        let lens = [
            below(336),
            below(4),
            below((seen.count * STABLE_PAGE) as usize),
            below(seen.needs.dirty * PAGE_LEN),
            below(seen.needs.dirty),
            below(8 * PAGE_LEN),
            below(2 * seen.needs.recorded),
            below(seen.work_len),
        ];
        match self.prng.below(9) {
            0 => Cut::State(lens[0]),
            1 => Cut::Answer(lens[1]),
            2 => Cut::Memory(lens[2]),
            3 => Cut::Frames(lens[3]),
            4 => Cut::Numbers(lens[4]),
            5 => Cut::Clean(lens[5]),
            6 => Cut::Record(lens[6]),
            7 => Cut::Work(lens[7]),
            _ => Cut::State(self.prng.pick(&[337, 344, 400, 0])),
        }
    }
}

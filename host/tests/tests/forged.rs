//! States that no call leaves, with slices of any length: every call ends, and touches nothing that it has no business
//! with.

use conformance::block::IMPORTING;
use conformance::prng::{mix, Prng};
use conformance::store::every::every_call;
use conformance::store::library::{ask, work_noise};
use conformance::store::place::{length, near};
use conformance::store::{Buffers, Bytes, Call, Library, Room, PAGE_LEN};
use yuharopu::raw::{self, Lent};

const STABLE_PAGE: usize = 65_536;
const GUARD: usize = 64;
/// Places in the state.
const SIZE: usize = 4;
const FLAGS: usize = 7;
const REFRESH_OFFSET: usize = 13;
const UPDATING: usize = 22;
const DIRTY: usize = 25;
const RECORDED: usize = 26;
const CLEAN: usize = 27;

/// A slice in the middle of noise.
struct Guarded<T> {
    all: Vec<T>,
    before: Vec<T>,
}

impl<T: Copy + PartialEq> Guarded<T> {
    fn new(len: usize, mut make: impl FnMut() -> T) -> Self {
        let all: Vec<T> = (0..len + 2 * GUARD).map(|_| make()).collect();
        let before = all.clone();
        Self { all, before }
    }

    fn part(&mut self) -> &mut [T] {
        let end = self.all.len() - GUARD;
        &mut self.all[GUARD..end]
    }

    fn is_guarded(&self) -> bool {
        let end = self.all.len() - GUARD;
        self.all[..GUARD] == self.before[..GUARD] && self.all[end..] == self.before[end..]
    }

    fn is_same(&self) -> bool {
        self.all == self.before
    }
}

struct Slices {
    state: Guarded<u8>,
    mem: Guarded<u8>,
    frames: Guarded<u8>,
    numbers: Guarded<u64>,
    clean: Guarded<u8>,
    record: Guarded<u64>,
    work: Guarded<u64>,
    dst: Guarded<u8>,
    answer: Guarded<u64>,
}

fn state_bytes(prng: &mut Prng, call: &Call, mem_pages: u64) -> Vec<u8> {
    let mut number = |_| match prng.below(3) {
        0 => prng.field(),
        1 => prng.below(6),
        _ => prng.below(400_000),
    };
    let mut numbers: Vec<u64> = (0..42).map(&mut number).collect();
    if prng.below(8) > 0 {
        numbers[0] = prng.below(mem_pages + 1);
    }
    if prng.below(2) == 0 {
        // a number of dirty pages and of entries that may be lent
        numbers[DIRTY] = prng.below(4);
        numbers[RECORDED] = prng.below(5);
    }
    if prng.below(2) == 0 {
        // mostly direct
        numbers[UPDATING] = prng.pick(&[0, 0, 1]);
    }
    // these hash the whole file, which has to end
    if matches!(
        call,
        Call::Checksum | Call::RefreshChecksum | Call::RefreshChecksumChunk(_)
    ) {
        numbers[SIZE] %= 1 << 20;
        numbers[REFRESH_OFFSET] %= 1 << 21;
    }
    numbers.iter().flat_map(|n| n.to_le_bytes()).collect()
}

impl Slices {
    fn any(prng: &mut Prng, call: &Call) -> Self {
        let pages = prng.below(4);
        let mem_len = pages as usize * STABLE_PAGE + prng.pick(&[0, 0, 1, 70, STABLE_PAGE - 1]);
        let mut bytes = state_bytes(prng, call, pages).into_iter();
        let frames = prng.below(4) as usize;
        let mut seed = prng.number();
        let mut byte = || {
            seed = seed.wrapping_mul(0x5851_f42d_4c95_7f2d).wrapping_add(1);
            (seed >> 56) as u8
        };
        let mut state = Guarded::new(336, &mut byte);
        state.part().fill_with(|| bytes.next().expect("336 bytes"));
        state.before = state.all.clone();
        let clean_len = prng.pick(&[8 * PAGE_LEN, 8 * PAGE_LEN, 8 * PAGE_LEN + 9, 100]);
        let work_len = prng.pick(&[yuharopu::work_numbers(4), yuharopu::work_numbers(frames), 9]);
        let dst_len = prng.below(40_000) as usize;
        let entries = prng.below(9) as usize;
        let numbers = frames + prng.below(2) as usize;
        Self {
            state,
            mem: Guarded::new(mem_len, &mut byte),
            frames: Guarded::new(frames * PAGE_LEN + prng.pick(&[0, 0, 99]), &mut byte),
            clean: Guarded::new(clean_len, &mut byte),
            dst: Guarded::new(dst_len, &mut byte),
            numbers: Guarded::new(numbers, || prng.below(9)),
            record: Guarded::new(entries, || prng.below(30)),
            work: Guarded::new(work_len, || 7),
            answer: Guarded::new(4, || 7),
        }
    }

    fn call(&mut self, call: &Call) -> u64 {
        let mut lent = Lent {
            mem: self.mem.part(),
            frames: self.frames.part(),
            numbers: self.numbers.part(),
            clean: self.clean.part(),
            record: self.record.part(),
            work: self.work.part(),
        };
        let (state, dst, answer) = (self.state.part(), self.dst.part(), self.answer.part());
        ask(call, state, &mut lent, dst, answer)
    }

    /// 10 is due unless a slice is too short: the call is direct, and an import is open.
    fn is_barred(&self, call: &Call) -> bool {
        let state = &self.state.before[GUARD..];
        let number = |place: usize| {
            let bytes = &state[8 * place..8 * (place + 1)];
            u64::from_le_bytes(bytes.try_into().expect("eight bytes"))
        };
        call.is_change() && number(UPDATING) == 0 && number(FLAGS) & IMPORTING != 0
    }

    /// The same state in the library's own form, as a begin leaves it, which is refused by 10 too.
    fn is_state_kept(&self) -> bool {
        let (mut state, mut answer) = (self.state.before.clone(), [0; 4]);
        let end = state.len() - GUARD;
        let number = raw::begin_update(&mut state[GUARD..end], 0, 0, 0, &mut answer);
        number == 10 && state == self.state.all
    }

    fn check(&self, call: &Call, number: u64) -> Result<(), &'static str> {
        let (changing, importing) = match call {
            Call::WriteAt { .. } | Call::Truncate(_) | Call::CommitUpdate => (true, true),
            Call::BeginImport { .. }
            | Call::ImportChunk { .. }
            | Call::FinishImport
            | Call::CancelImport
            | Call::RefreshChecksum
            | Call::RefreshChecksumChunk(_) => (false, true),
            _ => (false, false),
        };
        let ends = changing || matches!(call, Call::RollbackUpdate);
        let reads = matches!(call, Call::ReadAt { .. });
        let shows = reads || matches!(call, Call::ExportChunk { .. } | Call::DirtyPage(_));
        let looks = matches!(
            call,
            Call::FileSize | Call::ExportChunk { .. } | Call::Checksum | Call::DirtyPage(_)
        );
        let short = number == 35;
        // "like 35, with nothing changed, lent frames and lists included"
        let barred = self.is_barred(call);
        let stays = short || barred;
        let ten = changing && number == 10;
        fn may<T: Copy + PartialEq>(slice: &Guarded<T>, change: bool) -> bool {
            slice.is_guarded() && (change || slice.is_same())
        }
        let rules = [
            (may(&self.state, !looks && !short), "state"),
            (may(&self.mem, importing && !stays), "memory"),
            (may(&self.frames, ends && !stays), "frames"),
            (may(&self.numbers, ends && !stays), "numbers"),
            (may(&self.clean, (ends || reads) && !stays), "clean"),
            (may(&self.record, ends && !stays), "record"),
            (may(&self.work, changing && !stays), "work"),
            (may(&self.dst, shows && !short), "dst"),
            (may(&self.answer, !short), "answer"),
            (short || ten == barred, "10"),
            (!ten || self.is_state_kept(), "state at 10"),
        ];
        match rules.iter().find(|(holds, _)| !holds) {
            Some((_, what)) => Err(what),
            None => Ok(()),
        }
    }
}

/// The same call with any numbers.
fn varied(prng: &mut Prng, call: Call) -> Call {
    let place = match prng.below(3) {
        0 => prng.field(),
        1 => near(prng, 65_536),
        _ => prng.below(400_000),
    };
    let bytes = Bytes {
        seed: prng.below(9),
        start: 0,
        len: length(prng),
    };
    match call {
        Call::ReadAt { len, .. } => Call::ReadAt { offset: place, len },
        Call::WriteAt { .. } => Call::WriteAt {
            offset: place,
            bytes,
        },
        Call::Truncate(_) => Call::Truncate(place),
        Call::ImportChunk { .. } => Call::ImportChunk {
            offset: prng.pick(&[place, 0, 1]),
            bytes,
        },
        Call::BeginImport { expected, .. } => Call::BeginImport {
            total: place,
            expected,
        },
        Call::ExportChunk { len, .. } => Call::ExportChunk { offset: place, len },
        Call::DirtyPage(_) => Call::DirtyPage(prng.below(9)),
        other => other,
    }
}

#[test]
fn any_state_and_any_slices() {
    let mut answered = std::collections::BTreeMap::new();
    for index in 0..400 {
        for call in every_call() {
            let mut prng = Prng::new(mix(index ^ mix(answered.len() as u64)));
            let call = varied(&mut prng, call);
            let mut slices = Slices::any(&mut prng, &call);
            let number = slices.call(&call);
            if let Err(what) = slices.check(&call, number) {
                panic!("index {index}, {call:?} answers {number}, and {what} is not as it should be");
            }
            *answered.entry((call.name(), number)).or_insert(0) += 1;
        }
    }
    assert!(answered.len() > 50, "{answered:?}");
    assert!(answered[&("write_at", 10)] > 10, "{answered:?}");
    assert!(answered[&("truncate", 10)] > 10, "{answered:?}");
}

/// The state's bytes at random, whole.
#[test]
fn noise() {
    for index in 0..100 {
        for call in every_call() {
            if matches!(call, Call::Checksum | Call::RefreshChecksum) {
                continue;
            }
            let mut prng = Prng::new(mix(index));
            let mut slices = Slices::any(&mut prng, &call);
            prng.fill(slices.state.part());
            slices.state.part()[..8].copy_from_slice(&(index % 3).to_le_bytes());
            slices.state.before = slices.state.all.clone();
            let number = slices.call(&call);
            if let Err(what) = slices.check(&call, number) {
                panic!("index {index}, {call:?} answers {number}, and {what} is not as it should be");
            }
        }
    }
}

fn state_of(numbers: &[(usize, u64)]) -> Vec<u8> {
    let mut state = [0; 42];
    for (at, number) in numbers {
        state[*at] = *number;
    }
    state.iter().flat_map(|n| n.to_le_bytes()).collect()
}

/// A dirty page is shown as far as the buffer reaches, and not at all where no update is open or the page is not dirty. Frames or
/// numbers that hold less than the update has are 35.
#[test]
fn a_dirty_page_in_any_buffer() {
    let frames = Prng::new(1).bytes(2 * PAGE_LEN);
    let open = state_of(&[(UPDATING, 1), (DIRTY, 2)]);
    for len in [0, 1, 100, PAGE_LEN, PAGE_LEN + 1] {
        let (mut dst, mut answer) = (vec![9; len], [9; 5]);
        let number = raw::dirty_page(&open, &frames, &[4, 6], 6, &mut dst, &mut answer);
        assert_eq!((number, answer), (0, [PAGE_LEN as u64, 0, 0, 0, 9]));
        let held = len.min(PAGE_LEN);
        assert!(dst[..held] == frames[PAGE_LEN..PAGE_LEN + held]);
        assert!(dst[held..].iter().all(|byte| *byte == 9));
    }
    let none = state_of(&[(DIRTY, 2)]);
    let one = state_of(&[(UPDATING, 1), (DIRTY, 1)]);
    let cases: [(&[u8], usize, &[u64], u64, u64); 7] = [
        (&none, 2 * PAGE_LEN, &[4, 6], 6, 0),
        (&none, 0, &[], 6, 0),
        (&open, 2 * PAGE_LEN, &[4, 6], 5, 0),
        (&one, 2 * PAGE_LEN, &[4, 6], 6, 0),
        (&open, 2 * PAGE_LEN - 1, &[4, 6], 4, 35),
        (&open, 2 * PAGE_LEN, &[4], 4, 35),
        (&open, 0, &[], 6, 35),
    ];
    for (state, lent, numbers, page, expected) in cases {
        let (mut dst, mut answer) = ([9; 4], [9; 4]);
        let frames = &frames[..lent];
        let number = raw::dirty_page(state, frames, numbers, page, &mut dst, &mut answer);
        let values = if expected == 0 { [0; 4] } else { [9; 4] };
        assert_eq!((number, answer, dst), (expected, values, [9; 4]));
    }
}

/// A count of clean pages above eight counts as eight, and numbers past it become 0.
#[test]
fn clean_pages_above_eight() {
    for (count, kept) in [(0, 0), (3, 3), (8, 8), (9, 8), (u64::MAX, 8)] {
        let mut numbers = vec![(UPDATING, 2), (CLEAN, count)];
        numbers.extend((0..8).map(|at| (CLEAN + 1 + at, 30 + at as u64)));
        let mut state = state_of(&numbers);
        let before = Prng::new(2).bytes(8 * PAGE_LEN);
        let mut clean = before.clone();
        let mut lent = Lent {
            mem: &mut [],
            frames: &mut [],
            numbers: &mut [],
            clean: &mut clean,
            record: &mut [],
            work: &mut [],
        };
        let mut answer = [9; 4];
        let number = raw::read_at(&mut state, &mut lent, 0, &mut [], &mut answer);
        assert_eq!((number, answer), (0, [1, 0, 0, 0]));
        let mut expected = vec![(UPDATING, 1), (CLEAN, kept)];
        expected.extend((0..kept as usize).map(|at| (CLEAN + 1 + at, 30 + at as u64)));
        assert_eq!(state, state_of(&expected), "{count} clean pages");
        assert!(clean == before);
    }
}

/// A file of 20,000 bytes, in memory that holds noise behind it.
fn opened() -> Library {
    let memory = Prng::new(3).bytes(4 * STABLE_PAGE);
    let room = Room {
        frames: 3,
        entries: 4,
    };
    let (mut library, _) = Library::open(memory, 0, Buffers::noise(4, room));
    asked(&mut library, &write(0, 20_000), 0);
    library.lend(Buffers::noise(5, room));
    library
}

fn write(offset: u64, len: usize) -> Call {
    let (seed, start) = (6, 0);
    let bytes = Bytes { seed, start, len };
    Call::WriteAt { offset, bytes }
}

fn asked(library: &mut Library, call: &Call, number: u64) {
    let outcome = library.call(call).expect("slices as they should be");
    assert_eq!(outcome.number, number, "{call:?}");
}

/// The importing mark in the state, and nowhere else.
fn turn_mark(library: &mut Library) {
    library.state[8 * FLAGS] ^= IMPORTING as u8;
}

/// A write or truncation is direct with no update open: in one, it is what it is without the mark.
#[test]
fn an_update_and_an_import_at_once() {
    let calls = [
        write(0, 1),
        write(19_999, 20_000),
        write(3, 0),
        write(u64::MAX, 2),
        write(0, 5 * PAGE_LEN),
        Call::Truncate(20_000),
        Call::Truncate(0),
        Call::Truncate(u64::MAX),
        Call::Truncate(90_000),
    ];
    for call in calls {
        let mut plain = opened();
        asked(&mut plain, &Call::BeginUpdate(None), 0);
        let mut forged = plain.clone();
        turn_mark(&mut forged);
        let one = plain.call(&call).expect("slices as they should be");
        let other = forged.call(&call).expect("slices as they should be");
        assert_eq!(one, other, "{call:?}");
        assert_ne!(other.number, 10, "{call:?}");
        turn_mark(&mut forged);
        assert!(plain == forged, "{call:?}");
    }
}

/// The state's mark decides, whatever the block in memory has.
#[test]
fn the_mark_of_the_state_decides() {
    let mut library = opened();
    turn_mark(&mut library);
    let before = library.clone();
    for call in [write(0, 1), Call::Truncate(20_000)] {
        asked(&mut library, &call, 10);
        assert!(library.state == before.state && library.memory == before.memory);
        assert!(library.buffers == before.buffers);
        assert!(library.work == work_noise(library.work.len()));
    }
    let mut library = opened();
    let import = Call::BeginImport {
        total: 10,
        expected: 5,
    };
    asked(&mut library, &import, 0);
    asked(&mut library, &write(0, 1), 10);
    turn_mark(&mut library);
    asked(&mut library, &write(0, 1), 0);
}

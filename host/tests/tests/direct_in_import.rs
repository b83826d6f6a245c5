//! Direct calls in an import: one that would change the file "refuses with 10, right after 35 and, like 35, with nothing
//! changed, lent frames and lists included; an empty direct write is still accepted" (02, W-203).

use conformance::block::{self, Block, SIZE, STABLE_PAGE};
use conformance::plan::numbers;
use conformance::prng::Prng;
use conformance::store::act::Cut;
use conformance::store::library::{ask, work_noise};
use conformance::store::{Act, Buffers, Bytes, Call, Library, Made, Outcome, Room, Run, PAGE_LEN};
use yuharopu::raw::Lent;
use yuharopu::{Error, Store};

const PAGE: u64 = PAGE_LEN as u64;
const ROOM: Room = Room {
    frames: 2,
    entries: 4,
};
const NO_ROOM: Room = Room {
    frames: 0,
    entries: 0,
};
const IMPORT: Call = Call::BeginImport {
    total: 10,
    expected: 5,
};

const READ: Call = Call::ReadAt { offset: 0, len: 3 };

fn bytes(len: usize) -> Bytes {
    let (seed, start) = (203, 0);
    Bytes { seed, start, len }
}

fn write(offset: u64, len: usize) -> Call {
    let bytes = bytes(len);
    Call::WriteAt { offset, bytes }
}

fn chunk(len: usize) -> Call {
    let (offset, bytes) = (0, bytes(len));
    Call::ImportChunk { offset, bytes }
}

fn fresh() -> Made {
    Made {
        memory: Prng::new(203).bytes(4 * STABLE_PAGE + 5),
        count: 0,
    }
}

/// The image after these calls, all accepted, and then noise in all that is lent beside memory.
fn after(made: &Made, room: Room, calls: &[Call]) -> Library {
    let (mut library, outcome) =
        Library::open(made.memory.clone(), made.count, Buffers::noise(7, ROOM));
    assert_eq!(outcome, Outcome::done());
    for call in calls {
        let outcome = library.call(call).expect("slices as they should be");
        assert_eq!(outcome.number, 0, "{call:?}");
    }
    lend(&mut library, room);
    library
}

fn lend(library: &mut Library, room: Room) {
    library.lend(Buffers::noise(8, room));
    library.work = work_noise(library.work.len());
}

/// A file of 3 bytes, and an import.
fn in_import() -> Library {
    after(&fresh(), ROOM, &[write(0, 3), IMPORT])
}

/// The answer, with its values and a place behind them; and the bytes that are read.
fn call(library: &mut Library, call: Call) -> (u64, [u64; 5], Vec<u8>) {
    let (mut dst, mut answer) = (vec![9; 3], [9; 5]);
    let buffers = &mut library.buffers;
    let mut lent = Lent {
        mem: &mut library.memory,
        frames: &mut buffers.frames,
        numbers: &mut buffers.numbers,
        clean: &mut buffers.clean,
        record: &mut buffers.record,
        work: &mut library.work,
    };
    let state = &mut library.state;
    let number = ask(&call, state, &mut lent, &mut dst, &mut answer);
    (number, answer, dst)
}

fn accepted(library: &mut Library, asked: Call) {
    assert_eq!(call(library, asked).0, 0, "{asked:?}");
}

/// 10, and state, memory, frames, page numbers, clean frames, record and work list are as they were.
fn refused(library: &mut Library, asked: Call) {
    let before = library.clone();
    let (number, answer, _) = call(library, asked);
    assert_eq!((number, answer), (10, [0, 0, 0, 0, 9]), "{asked:?}");
    assert!(*library == before, "{asked:?} changes what is lent");
}

fn is_zeros(numbers: &[u64]) -> bool {
    numbers.iter().all(|number| *number == 0)
}

#[test]
fn a_write_and_truncations_of_a_file() {
    let mut library = in_import();
    refused(&mut library, write(0, 1));
    refused(&mut library, Call::Truncate(3));
    refused(&mut library, Call::Truncate(0));
    refused(&mut library, Call::Truncate(u64::MAX));
    refused(&mut library, write(u64::MAX, 2));
}

/// Also where nothing would be stored.
#[test]
fn a_truncation_of_an_empty_file() {
    let mut library = after(&fresh(), ROOM, &[IMPORT]);
    refused(&mut library, Call::Truncate(0));
}

#[test]
fn an_empty_write() {
    for offset in [0, 3, PAGE, u64::MAX] {
        let mut library = in_import();
        let before = library.clone();
        let (number, answer, _) = call(&mut library, write(offset, 0));
        assert_eq!((number, answer), (0, [0, 0, 0, 0, 9]), "{offset}");
        assert!(library.memory == before.memory && library.state == before.state);
        let mut zeros = before.buffers;
        zeros.wipe();
        assert!(library.buffers == zeros && is_zeros(&library.work));
    }
}

#[test]
fn no_frame_and_no_entry() {
    let mut library = in_import();
    lend(&mut library, NO_ROOM);
    refused(&mut library, write(3, 2 * PAGE_LEN - 3));
}

/// All that a direct call can be too short of. `refuses` holds answer and work list to be as they were.
#[test]
fn a_slice_that_is_too_short() {
    let mut library = in_import();
    let count = library.numbers()[0] as usize;
    let work = yuharopu::work_numbers(library.buffers.room().frames);
    let cuts = [
        Cut::Work(work - 1),
        Cut::Memory(count * STABLE_PAGE - 1),
        Cut::Clean(8 * PAGE_LEN - 1),
        Cut::State(335),
        Cut::Answer(3),
    ];
    let before = library.clone();
    for cut in cuts {
        for call in [write(0, 1), write(0, 0), Call::Truncate(3)] {
            assert_eq!(library.refuses(&call, cut), Ok(()), "{call:?}");
            assert!(library == before, "{call:?} changes what is lent: {cut:?}");
        }
    }
}

#[test]
fn other_calls() {
    let mut library = in_import();
    let before = library.clone();
    let held = bytes(3).make();
    let sum = block::fnv1a64(&held);
    let full = (0, [1, 0, 0, 0, 9], held.clone());
    assert_eq!(call(&mut library, READ), full);
    let exported = (0, [3, 0, 0, 0, 9], held);
    let export = Call::ExportChunk { offset: 0, len: 3 };
    assert_eq!(call(&mut library, export), exported);
    let (number, answer, _) = call(&mut library, Call::Checksum);
    assert_eq!((number, answer), (0, [sum, 0, 0, 0, 9]));
    refused(&mut library, Call::BeginUpdate(None));
    refused(&mut library, Call::RefreshChecksumChunk(1));
    refused(&mut library, IMPORT);
    assert!(library == before);
    let (number, answer, _) = call(&mut library, Call::RefreshChecksum);
    assert_eq!((number, answer), (0, [sum, 0, 0, 0, 9]));
    refused(&mut library, write(0, 1));
}

/// With no update open: accepted, and of what is lent only the work list changes, which a rollback is not lent.
#[test]
fn a_commit_and_a_rollback() {
    let mut library = in_import();
    let before = library.clone();
    accepted(&mut library, Call::RollbackUpdate);
    assert!(library == before);
    accepted(&mut library, Call::CommitUpdate);
    assert!(is_zeros(&library.work));
    library.work = before.work.clone();
    assert!(library == before);
}

#[test]
fn after_a_cancel() {
    let mut library = in_import();
    refused(&mut library, write(0, 1));
    accepted(&mut library, Call::CancelImport);
    accepted(&mut library, write(0, 1));
}

#[test]
fn after_a_finish_that_closes() {
    let mut library = in_import();
    accepted(&mut library, chunk(10));
    refused(&mut library, Call::Truncate(3));
    assert_eq!(call(&mut library, Call::FinishImport).0, 24);
    accepted(&mut library, Call::Truncate(3));
    accepted(&mut library, write(0, 1));
}

/// A file of two pages with as many runs as there may be, all of them past its end.
fn full_of_runs() -> Made {
    let runs: Vec<_> = (0..1_024).map(|run| (2 * run + 9, 2 * run + 10)).collect();
    let mut block = Block::fresh();
    block.fields[SIZE] = 2 * PAGE;
    block.fields[block::COUNT] = 1_024;
    block.runs = numbers(&runs);
    let mut made = fresh();
    made.memory[..block::BYTES].copy_from_slice(&block.sealed());
    made.count = 2;
    made
}

/// Each refusal that a direct call can meet is met without the import, and 10 with it.
#[test]
fn before_any_other_refusal() {
    let made = full_of_runs();
    let room = |frames, entries| Room { frames, entries };
    let cases = [
        (ROOM, write(u64::MAX, 1), 20),
        (ROOM, Call::Truncate(3 * PAGE), 31),
        (ROOM, write(0, 3 * PAGE_LEN), 33),
        (room(0, 4), write(0, 1), 33),
        (room(2, 0), Call::Truncate(3 * PAGE), 34),
        (NO_ROOM, write(0, 3 * PAGE_LEN), 34),
    ];
    for (room, asked, number) in cases {
        let mut library = after(&made, room, &[]);
        assert_eq!(call(&mut library, asked).0, number, "{asked:?}");
        refused(&mut after(&made, room, &[IMPORT]), asked);
    }
    let cases = [
        (Call::Truncate(u64::MAX - 65_535), 20),
        (Call::Truncate(u64::MAX - 81_919), 32),
        (write(4 * STABLE_PAGE as u64, 1), 32),
    ];
    for (asked, number) in cases {
        let mut library = after(&fresh(), ROOM, &[write(0, 3)]);
        assert_eq!(call(&mut library, asked).0, number, "{asked:?}");
        refused(&mut in_import(), asked);
    }
}

/// "may grow into the import's bytes": a fresh image and its import share their place, and the import is finished with
/// the bytes that came.
#[test]
fn an_import_keeps_its_bytes() {
    let came = bytes(3).make();
    let import = Call::BeginImport {
        total: 3,
        expected: block::fnv1a64(&came),
    };
    let mut library = after(&fresh(), ROOM, &[import, chunk(3)]);
    refused(&mut library, write(1, 1));
    refused(&mut library, Call::Truncate(2));
    accepted(&mut library, Call::FinishImport);
    assert_eq!(call(&mut library, READ).2, came);
}

/// The same calls, held to the model, to the plain file, which no call of an import changes here, and to the original,
/// which is not asked for the refused ones and stays in step.
#[test]
fn models_and_the_original_agree() {
    let opened = Run::open(&fresh(), Buffers::noise(7, ROOM));
    let (_, run) = opened.expect("the same everywhere");
    let mut run = run.expect("a fresh image");
    let calls = [
        (IMPORT, 0),
        (Call::Truncate(0), 10),
        (Call::CancelImport, 0),
        (write(0, 3), 0),
        (IMPORT, 0),
        (write(0, 1), 10),
        (Call::Truncate(3), 10),
        (Call::Truncate(0), 10),
        (Call::Truncate(u64::MAX), 10),
        (write(u64::MAX, 2), 10),
        (write(u64::MAX, 0), 0),
        (READ, 0),
        (Call::CommitUpdate, 0),
        (Call::RollbackUpdate, 0),
        (chunk(10), 0),
        (write(3, PAGE_LEN), 10),
        (Call::FinishImport, 24),
        (write(0, 1), 0),
        (Call::Truncate(3), 0),
    ];
    for (call, number) in calls {
        let outcome = run
            .act(&Act::Call(call))
            .unwrap_or_else(|text| panic!("{call:?}: {text}"));
        assert_eq!(outcome.expect("a call").number, number, "{call:?}");
    }
    assert_eq!(run.left_out, 7);
}

/// The same of the owner of the buffers.
#[test]
fn a_store() {
    let mut store = Store::builder().create().expect("a fresh image");
    assert_eq!(store.write_at(0, b"abc"), Ok(()));
    assert_eq!(store.begin_import(3, 5), Ok(()));
    let memory = store.memory().to_vec();
    let refused = Err(Error::ImportAlreadyStarted);
    assert_eq!(store.write_at(0, b"x"), refused);
    assert_eq!(store.truncate(3), refused);
    assert_eq!(store.write_at(u64::MAX, b"xy"), refused);
    assert_eq!(store.write_at(u64::MAX, b""), Ok(()));
    assert!(store.memory() == memory);
    assert_eq!(store.cancel_import(), Ok(()));
    assert_eq!(store.write_at(0, b"x"), Ok(()));
}

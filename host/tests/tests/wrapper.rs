//! The store in safe Rust, which lends no more frames than a call can need, beside the library lent all of them. The lists are
//! those of `store.rs` without their other lendings, and the library's side is held to the original and the models too.

use conformance::prng::{mix, Prng};
use conformance::store::choose::Chooser;
use conformance::store::{Act, Buffers, Call, Made, Outcome, Room, Run};
use yuharopu::{Aligned, Budget, Error, Store};

const LISTS: u64 = 400;
const CALLS: u64 = 120;
const STABLE_PAGE: usize = 65_536;
const LINE: usize = 64;

fn refused(error: Error) -> Outcome {
    let values = match error {
        Error::UnsupportedLayoutVersion(found) => [found, 0],
        Error::ChecksumMismatch { expected, actual } => [expected, actual],
        Error::GrowFailed { current, required } => [current, required],
        _ => [0; 2],
    };
    Outcome::refused((error.number(), values))
}

fn of<T>(answer: Result<T, Error>, show: impl FnOnce(T) -> Outcome) -> Outcome {
    answer.map_or_else(refused, show)
}

fn call(store: &mut Store, call: &Call) -> Outcome {
    let done = |()| Outcome::done();
    match call {
        Call::BeginUpdate(budget) => {
            let budget = budget.map(|(max_pages, max_bytes)| Budget {
                max_pages,
                max_bytes,
            });
            of(store.begin_update(budget), Outcome::value)
        }
        Call::FileSize => of(store.file_size(), Outcome::value),
        Call::ReadAt { offset, len } => {
            let mut bytes = vec![7; *len];
            let answer = store.read_at(*offset, &mut bytes);
            of(answer, |full| Outcome::with_bytes(u64::from(full), bytes))
        }
        Call::WriteAt { offset, bytes } => of(store.write_at(*offset, &bytes.make()), done),
        Call::Truncate(size) => of(store.truncate(*size), done),
        Call::CommitUpdate => of(store.commit_update(), done),
        Call::RollbackUpdate => of(store.rollback_update(), done),
        Call::BeginImport { total, expected } => of(store.begin_import(*total, *expected), done),
        Call::ImportChunk { offset, bytes } => of(store.import_chunk(*offset, &bytes.make()), done),
        Call::FinishImport => of(store.finish_import(), done),
        Call::CancelImport => of(store.cancel_import(), done),
        Call::ExportChunk { offset, len } => {
            let mut bytes = vec![7; *len];
            let answer = store.export_chunk(*offset, &mut bytes);
            of(answer, |n| {
                bytes.truncate(n);
                Outcome::with_bytes(n as u64, bytes)
            })
        }
        Call::Checksum => of(store.checksum(), Outcome::value),
        Call::RefreshChecksum => of(store.refresh_checksum(), Outcome::value),
        Call::RefreshChecksumChunk(n) => of(store.refresh_checksum_chunk(*n), |step| {
            let complete = u64::from(step.complete);
            Outcome::accepted([complete, step.checksum, step.scanned_bytes, step.db_size])
        }),
        Call::DirtyPage(page) => match store.dirty_page(*page) {
            Some(bytes) => Outcome::with_bytes(bytes.len() as u64, bytes),
            None => Outcome::done(),
        },
    }
}

/// The same image on both sides, with room for as much.
fn open(made: &Made, seed: u64, room: Room) -> Option<(Run, Store)> {
    let mut buffers = Buffers::noise(seed, room);
    buffers.numbers.truncate(room.frames);
    let (outcome, run) = Run::open(made, buffers).expect("the same everywhere");
    let store = Store::builder()
        .ceiling(made.ceiling() as usize)
        .frames(room.frames)
        .record_entries(room.entries)
        .open(&made.memory[..made.count as usize * STABLE_PAGE]);
    match (run, store) {
        (Some(run), Ok(store)) => Some((run, store)),
        (None, Err(error)) => {
            assert_eq!(refused(error), outcome);
            None
        }
        (run, store) => panic!("{outcome:?}: {} {}", run.is_some(), store.is_ok()),
    }
}

#[test]
fn any_list_of_calls() {
    let (mut calls, mut full, mut left_out) = (0, 0, 0);
    for index in 0..LISTS {
        let mut prng = Prng::new(mix(index));
        let mut chooser = Chooser::new(prng.number(), index.is_multiple_of(4));
        let made = Made::any(prng.number());
        let Some((mut run, mut store)) = open(&made, prng.number(), chooser.room()) else {
            continue;
        };
        for _ in 0..CALLS {
            let act = chooser.next(&run.seen());
            let Act::Call(asked) = act else { continue };
            let whole = run.act(&act).unwrap_or_else(|text| panic!("{text}"));
            let whole = whole.expect("a call");
            let ours = call(&mut store, &asked);
            assert!(
                ours == whole,
                "list {index}, {asked:?}: {ours:?}, {whole:?}"
            );
            let memory = &run.library.memory[..store.memory().len()];
            assert!(store.memory() == memory, "list {index}, {asked:?}: memory");
            calls += 1;
            full += u64::from(whole.number == 33);
        }
        left_out += run.left_out;
    }
    assert!(calls > 20_000 && full > 500, "{calls} calls, {full} by 33");
    assert!(left_out > 100, "{left_out} direct calls in an import");
}

#[test]
fn buffers_are_aligned() {
    for len in (0..200).chain([16_384, 131_072, 1 << 20]) {
        let mut bytes = Aligned::zeros(len);
        assert_eq!(bytes.as_ptr().align_offset(LINE), 0, "{len} bytes");
        assert!(bytes.len() == len && bytes.iter().all(|byte| *byte == 0));
        bytes.fill(7);
    }
    let store = Store::builder().create().expect("a fresh image");
    assert_eq!(store.memory().as_ptr().align_offset(LINE), 0);
}

//! Document 01's examples, and others worked by hand, on a store that owns its buffers.

use conformance::block::{Block, COUNT, PAGE_COUNT, SIZE, STABLE_PAGE, TX};
use conformance::plan::{numbers, Run};
use conformance::store::model::fields_and_runs;
use yuharopu::{Budget, ChecksumRefresh, Error, Store};

const PAGE: u64 = 16_384;
const PAGE_LEN: usize = PAGE as usize;

fn fresh() -> Store {
    Store::builder().ceiling(8).create().expect("a fresh image")
}

fn runs(store: &Store) -> Vec<Run> {
    fields_and_runs(store.memory()).1
}

fn field(store: &Store, field: usize) -> u64 {
    fields_and_runs(store.memory()).0[field]
}

fn read(store: &mut Store, offset: u64, len: usize) -> (bool, Vec<u8>) {
    let mut bytes = vec![9; len];
    let full = store
        .read_at(offset, &mut bytes)
        .expect("no read is refused");
    (full, bytes)
}

/// An image of this size, with these runs, whose bytes are 7.
fn image(size: u64, runs: &[Run], stable_pages: usize) -> Store {
    let mut block = Block::fresh();
    block.fields[SIZE] = size;
    block.fields[PAGE_COUNT] = size.div_ceil(PAGE);
    block.fields[COUNT] = runs.len() as u64;
    block.runs = numbers(runs);
    let mut memory = vec![7; stable_pages * STABLE_PAGE];
    let bytes = block.sealed();
    memory[..bytes.len()].copy_from_slice(&bytes);
    Store::builder().open(&memory).expect("an image")
}

#[test]
fn a_byte_in_the_second_page() {
    let mut store = fresh();
    assert_eq!(store.begin_update(None), Ok(0));
    assert_eq!(store.write_at(PAGE, &[5]), Ok(()));
    assert_eq!(store.file_size(), Ok(PAGE + 1));
    assert_eq!(store.dirty_page(0), None);
    let page = store.dirty_page(1).expect("page 1 is dirty");
    assert_eq!((page.len(), page[0], page[1]), (PAGE_LEN, 5, 0));
    assert_eq!(store.commit_update(), Ok(()));
    assert_eq!((runs(&store), store.stable_pages()), (vec![(0, 1)], 2));
    assert_eq!(store.truncate(PAGE), Ok(()));
    assert_eq!(runs(&store), [(0, 2)]);
    assert_eq!(store.truncate(PAGE + 1), Ok(()));
    assert_eq!(read(&mut store, PAGE, 1), (true, vec![0]));
}

#[test]
fn a_byte_at_the_start() {
    let mut store = fresh();
    assert_eq!(store.write_at(0, &[5]), Ok(()));
    assert_eq!(runs(&store), []);
    assert_eq!((field(&store, TX), store.dirty_page(0)), (0, None));
}

/// 1-2, 3-4, .. 2047-2048 in a file of 2,049 pages.
#[test]
fn as_many_runs_as_there_may_be() {
    let every_other: Vec<Run> = (0..1_024).map(|run| (2 * run + 1, 2 * run + 2)).collect();
    let size = 2_049 * PAGE;
    let mut store = image(size, &every_other, 514);
    assert_eq!(
        store.truncate(size + PAGE),
        Err(Error::ZeroExtentLimitExceeded)
    );
    assert_eq!(store.write_at(size, &[5; PAGE_LEN]), Ok(()));
    assert_eq!(runs(&store), every_other);

    let mut split = vec![(1, 4)];
    split.extend((0..1_023).map(|run| (2 * run + 10, 2 * run + 11)));
    let mut store = image(6 * PAGE, &split, 3);
    let refused = Err(Error::ZeroExtentLimitExceeded);
    assert_eq!(store.write_at(2 * PAGE, &[5; PAGE_LEN]), refused);
    assert_eq!(runs(&store), split);
}

/// 5-9 would fit in the end, but not after each addition.
#[test]
fn too_many_runs_on_the_way() {
    let mut full = vec![(8, 9)];
    full.extend((0..1_023).map(|run| (2 * run + 100, 2 * run + 101)));
    let mut store = image(5 * PAGE, &full, 3);
    assert_eq!(store.begin_update(None), Ok(5 * PAGE));
    for pages in [6, 8, 5] {
        assert_eq!(store.truncate(pages * PAGE), Ok(()));
    }
    assert_eq!(store.commit_update(), Err(Error::ZeroExtentLimitExceeded));
}

#[test]
fn sizes_at_the_end_of_all_offsets() {
    let mut store = fresh();
    let before = store.memory().to_vec();
    assert_eq!(
        store.truncate(u64::MAX - 65_535),
        Err(Error::OffsetOverflow)
    );
    assert_eq!(
        store.truncate(u64::MAX - 65_536),
        Err(Error::OffsetOverflow)
    );
    let refused = Error::GrowFailed {
        current: 1,
        required: 1 << 48,
    };
    assert_eq!(store.truncate(u64::MAX - 81_919), Err(refused));
    assert_eq!(store.write_at(u64::MAX, &[]), Ok(()));
    assert_eq!(store.write_at(u64::MAX, &[1]), Err(Error::OffsetOverflow));
    assert!(store.memory() == before);
}

/// What a refused write leaves: bytes past the size are zeros once the file grows over them.
#[test]
fn growth_over_what_a_refused_write_left() {
    let mut store = fresh();
    assert_eq!(store.write_at(0, &[3; 10]), Ok(()));
    let two_pages = Budget {
        max_pages: 2,
        max_bytes: u64::MAX,
    };
    assert_eq!(store.begin_update(Some(two_pages)), Ok(10));
    let refused = store.write_at(5, &[8; 3 * PAGE_LEN - 105]);
    assert_eq!(refused, Err(Error::BudgetExceeded));
    assert_eq!(store.file_size(), Ok(10));
    let page = store.dirty_page(0).expect("page 0 is dirty");
    assert!(page[5..].iter().all(|byte| *byte == 8));
    assert_eq!(store.truncate(PAGE), Ok(()));
    let expected = [3, 3, 3, 3, 3, 8, 8, 8, 8, 8, 0, 0];
    assert_eq!(read(&mut store, 0, 12), (true, expected.to_vec()));
}

/// A truncation drops the pages from its new count up, also where nothing is cut.
#[test]
fn a_truncation_drops_what_a_refused_write_left() {
    let mut store = fresh();
    let two_pages = Budget {
        max_pages: 2,
        max_bytes: u64::MAX,
    };
    assert_eq!(store.begin_update(Some(two_pages)), Ok(0));
    let refused = store.write_at(0, &[1; 3 * PAGE_LEN + 9]);
    assert_eq!(refused, Err(Error::BudgetExceeded));
    assert!(store.dirty_page(0).is_some() && store.dirty_page(3).is_some());
    assert_eq!(store.truncate(0), Ok(()));
    assert!(store.dirty_page(0).is_none() && store.dirty_page(3).is_none());
}

/// A truncation to the size it has makes a partial last page dirty.
#[test]
fn a_truncation_to_the_same_size() {
    let mut store = fresh();
    assert_eq!(store.write_at(0, &[1; 100]), Ok(()));
    assert_eq!(store.begin_update(None), Ok(100));
    assert_eq!(store.truncate(100), Ok(()));
    assert!(store.dirty_page(0).is_some());
    assert_eq!(store.commit_update(), Ok(()));
    assert_eq!(field(&store, TX), 1);
    assert_eq!(store.begin_update(None), Ok(100));
    assert_eq!(store.commit_update(), Ok(()));
    assert_eq!(field(&store, TX), 1, "an update without a change");
}

#[test]
fn an_import_is_exported_and_checked() {
    let mut store = fresh();
    assert_eq!(store.write_at(0, &[1; 100]), Ok(()));
    let hash = yuharopu::fnv1a64(b"abc");
    assert_eq!(store.begin_import(3, 5), Ok(()));
    assert_eq!(store.import_chunk(0, b"abc"), Ok(()));
    let refused = Error::ChecksumMismatch {
        expected: 5,
        actual: hash,
    };
    assert_eq!(store.finish_import(), Err(refused));
    assert_eq!(store.finish_import(), Err(Error::ImportNotStarted));
    assert_eq!(store.file_size(), Ok(100));
    assert_eq!(store.begin_import(3, hash), Ok(()));
    assert_eq!(store.import_chunk(1, b"x"), Err(Error::ImportOutOfOrder));
    assert_eq!(
        store.import_chunk(0, b"four"),
        Err(Error::ImportOutOfBounds)
    );
    assert_eq!(store.import_chunk(0, b"ab"), Ok(()));
    assert_eq!(store.finish_import(), Err(Error::ImportIncomplete));
    assert_eq!(store.import_chunk(2, b"c"), Ok(()));
    assert_eq!(store.finish_import(), Ok(()));
    let mut bytes = [9; 5];
    assert_eq!(store.export_chunk(1, &mut bytes), Ok(2));
    assert_eq!(&bytes, b"bc\x09\x09\x09");
    assert_eq!(store.checksum(), Ok(hash));
    let step = |complete, checksum, scanned_bytes| ChecksumRefresh {
        complete,
        checksum,
        scanned_bytes,
        db_size: 3,
    };
    let first = yuharopu::fnv1a64(b"ab");
    assert_eq!(store.refresh_checksum_chunk(2), Ok(step(false, first, 2)));
    assert_eq!(store.refresh_checksum_chunk(2), Ok(step(true, hash, 3)));
    assert_eq!(store.refresh_checksum(), Ok(hash));
}

#[test]
fn order_of_calls() {
    let mut store = fresh();
    assert_eq!(store.cancel_import(), Err(Error::ImportNotStarted));
    assert_eq!(store.commit_update(), Ok(()));
    assert_eq!(store.rollback_update(), Ok(()));
    assert_eq!(store.begin_update(None), Ok(0));
    assert_eq!(store.begin_update(None), Err(Error::UpdateBegunTwice));
    assert_eq!(store.begin_import(1, 1), Err(Error::UpdateInProgress));
    assert_eq!(store.checksum(), Err(Error::UpdateInProgress));
    assert_eq!(store.rollback_update(), Ok(()));
    let empty = Err(Error::ChecksumRefreshChunkEmpty);
    assert_eq!(store.refresh_checksum_chunk(0), empty);
    assert_eq!(store.begin_import(1, 1), Ok(()));
    assert_eq!(store.begin_import(1, 1), Err(Error::ImportAlreadyStarted));
    assert_eq!(store.begin_update(None), Err(Error::ImportAlreadyStarted));
    assert_eq!(store.write_at(0, &[1]), Err(Error::ImportAlreadyStarted));
    assert_eq!(store.truncate(0), Err(Error::ImportAlreadyStarted));
    assert_eq!(store.write_at(0, &[]), Ok(()));
    assert_eq!(store.cancel_import(), Ok(()));
    assert_eq!(store.write_at(0, &[1]), Ok(()));
}

#[test]
fn little_room() {
    let builder = Store::builder().ceiling(4).frames(1).record_entries(1);
    let mut store = builder.create().expect("a fresh image");
    assert_eq!(
        store.write_at(0, &[1; PAGE_LEN + 1]),
        Err(Error::FramesFull)
    );
    assert_eq!(store.begin_update(None), Ok(0));
    assert_eq!(store.truncate(PAGE), Ok(()));
    assert_eq!(store.truncate(2 * PAGE), Err(Error::RecordFull));
    assert_eq!(store.commit_update(), Ok(()));
    assert_eq!((store.file_size(), runs(&store)), (Ok(PAGE), vec![(0, 1)]));
}

#[test]
fn every_refusal_in_words() {
    for number in 0..100 {
        let Some(error) = Error::of(number, [3, 4]) else {
            continue;
        };
        assert_eq!(error.number(), number);
        assert!(!error.to_string().is_empty());
    }
    let numbers = (0..100).filter(|number| Error::of(*number, [0; 2]).is_some());
    assert_eq!(numbers.count(), 20);
    let unsupported = Error::of(2, [7, 0]).expect("a refusal");
    assert_eq!(
        unsupported.to_string(),
        "the version or the layout version is 7, not 8"
    );
}

#[test]
fn no_memory_at_all() {
    let refused = Store::builder().ceiling(0).create().err();
    let expected = Error::GrowFailed {
        current: 0,
        required: 1,
    };
    assert_eq!(refused, Some(expected));
    let noise = vec![1; 3 * STABLE_PAGE];
    let refused = Store::builder().open(&noise).err();
    assert_eq!(refused, Some(Error::ForeignStableMemoryImage));
}

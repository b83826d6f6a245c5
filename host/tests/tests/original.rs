//! The original behind the oracle: worked examples, so that a fault of the stand-ins is not taken for the original's.

use oracle::{Limit, Refusal, Store};
use std::sync::Once;

const PAGE: u64 = 16_384;
static SAID: Once = Once::new();

fn refusal(number: u64, values: [u64; 2]) -> Refusal {
    Refusal { number, values }
}

/// A fresh image with much room, or none where the original is not at hand.
fn fresh() -> Option<Store> {
    if !oracle::AVAILABLE {
        SAID.call_once(|| {
            conformance::say("the original's files are not at hand: its own examples are left out");
        });
        return None;
    }
    Some(Store::open(&[], 0, 64).expect("room for a superblock"))
}

fn runs(store: &mut Store) -> Vec<(u64, u64)> {
    store.superblock().expect("a superblock").runs
}

#[test]
fn a_byte_in_the_second_page() {
    let Some(mut store) = fresh() else { return };
    assert_eq!(store.begin_update(), Ok(0));
    assert_eq!(store.write_at(PAGE, &[7]), Ok(()));
    assert_eq!(store.file_size(), Ok(PAGE + 1));
    let draft = store.take_draft().expect("an open update");
    assert_eq!(draft.record, [(0, 2)]);
    let [(1, page)] = &draft.dirty_pages[..] else {
        panic!("page 1 alone is dirty")
    };
    assert_eq!((page.len() as u64, page[0], page[1]), (PAGE, 7, 0));

    assert_eq!(store.begin_update(), Ok(0));
    assert_eq!(store.write_at(PAGE, &[7]), Ok(()));
    assert_eq!(store.commit_update(), Ok(()));
    assert_eq!((runs(&mut store), store.count()), (vec![(0, 1)], 2));
    assert_eq!(store.truncate(PAGE), Ok(()));
    assert_eq!(runs(&mut store), [(0, 2)]);
    assert_eq!(store.truncate(PAGE + 1), Ok(()));
    let mut byte = [9];
    assert_eq!(store.read_at(PAGE, &mut byte), Ok(true));
    assert_eq!(byte, [0]);
}

#[test]
fn sizes_at_the_end_of_all_offsets() {
    let Some(mut store) = fresh() else { return };
    assert_eq!(store.truncate(u64::MAX - 65_535), Err(refusal(20, [0; 2])));
    assert_eq!(store.truncate(u64::MAX - 65_536), Err(refusal(20, [0; 2])));
    let refused = Err(refusal(32, [1, 1 << 48]));
    assert_eq!(store.truncate(u64::MAX - 81_919), refused);
    assert_eq!(store.write_at(u64::MAX, &[]), Ok(()));
    assert_eq!(store.snapshot(), oracle::fresh());
}

#[test]
fn order_of_calls() {
    let Some(mut store) = fresh() else { return };
    assert_eq!(store.cancel_import(), Err(refusal(11, [0; 2])));
    assert_eq!(store.begin_update(), Ok(0));
    assert_eq!(store.begin_update(), Err(refusal(13, [0; 2])));
    assert_eq!(store.checksum(), Err(refusal(12, [0; 2])));
    store.set_write_budget(1, u64::MAX);
    let two_pages = vec![1; 2 * PAGE as usize];
    assert_eq!(store.write_at(0, &two_pages), Err(refusal(30, [0; 2])));
    assert_eq!(
        (store.dirty_page_count(), store.write_stats().exceeded),
        (1, Some(Limit::Pages))
    );
    store.rollback_update();
    assert_eq!(store.refresh_checksum_chunk(0), Err(refusal(25, [0; 2])));
    assert_eq!(store.begin_import(3, 5), Ok(()));
    assert_eq!(store.begin_update(), Err(refusal(10, [0; 2])));
    assert_eq!(store.import_chunk(1, b"x"), Err(refusal(21, [0; 2])));
    assert_eq!(store.import_chunk(0, b"four"), Err(refusal(22, [0; 2])));
    assert_eq!(store.finish_import(), Err(refusal(23, [0; 2])));
    assert_eq!(store.import_chunk(0, b"abc"), Ok(()));
    let actual = oracle::fnv1a64(b"abc");
    assert_eq!(store.finish_import(), Err(refusal(24, [5, actual])));
}

#[test]
fn an_import_is_exported_and_checked() {
    let Some(mut store) = fresh() else { return };
    let hash = oracle::fnv1a64(b"abc");
    assert_eq!(store.begin_import(3, hash), Ok(()));
    assert_eq!(store.import_chunk(0, b"abc"), Ok(()));
    assert_eq!(store.finish_import(), Ok(()));
    assert_eq!(store.export_chunk(1, 9), Ok(b"bc".to_vec()));
    assert_eq!(
        (store.checksum(), store.refresh_checksum()),
        (Ok(hash), Ok(hash))
    );
    let step = store.refresh_checksum_chunk(2).expect("a step");
    assert_eq!(
        (step.complete, step.scanned_bytes, step.db_size),
        (false, 2, 3)
    );
    let step = store.refresh_checksum_chunk(2).expect("a step");
    assert_eq!((step.complete, step.checksum), (true, hash));
}

/// The original's import outlives an opening; `cancel_import` then closes it, and that is what the library's opening does.
#[test]
fn an_import_outlives_the_opening_here() {
    let Some(mut store) = fresh() else { return };
    assert_eq!(store.begin_import(3, 5), Ok(()));
    assert_eq!(store.import_chunk(0, b"ab"), Ok(()));
    let mut again = Store::open(&store.snapshot(), store.count(), 64).expect("an image");
    assert_eq!(again.snapshot(), store.snapshot());
    assert_eq!(again.begin_update(), Err(refusal(10, [0; 2])));
    assert_eq!(again.cancel_import(), Ok(()));
    assert_eq!(again.begin_update(), Ok(0));
}

/// Here a direct write in an import grows into its bytes, and a truncation runs too; the library refuses both.
#[test]
fn direct_calls_run_in_an_import_here() {
    let Some(mut store) = fresh() else { return };
    let expected = oracle::fnv1a64(b"abc");
    assert_eq!(store.begin_import(3, expected), Ok(()));
    assert_eq!(store.import_chunk(0, b"abc"), Ok(()));
    assert_eq!(store.write_at(0, b"x"), Ok(()));
    assert_eq!(store.truncate(2), Ok(()));
    assert_eq!(store.file_size(), Ok(2));
    let actual = oracle::fnv1a64(b"x\0\0");
    let refused = refusal(24, [expected, actual]);
    assert_eq!(store.finish_import(), Err(refused));
}

#[test]
fn stores_do_not_meet() {
    let (Some(mut one), Some(mut other)) = (fresh(), fresh()) else {
        return;
    };
    assert_eq!(one.begin_update(), Ok(0));
    assert_eq!(one.write_at(0, b"one"), Ok(()));
    assert_eq!((one.file_size(), other.file_size()), (Ok(3), Ok(0)));
    drop(one);
    assert_eq!(other.begin_update(), Ok(0));
    let mut again = fresh().expect("as before");
    assert_eq!((again.begin_update(), again.file_size()), (Ok(0), Ok(0)));
    assert_eq!(
        Store::open(&[], 0, 0).err(),
        Some(refusal(32, [0, 1])),
        "no room for a superblock"
    );
}

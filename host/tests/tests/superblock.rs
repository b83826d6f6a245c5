//! Superblocks: the library's verdicts, fields and stored bytes against the original's.

use conformance::answer::{byte_difference, Answer, Case};
use conformance::block::{self, Block, FIELDS, STABLE_PAGE};
use conformance::prng::Prng;
use conformance::recipe::RECIPES;

macro_rules! compared {
    ($($name:ident)*) => {
        $(#[test]
        fn $name() {
            conformance::compare(stringify!($name));
        })*

        #[test]
        fn every_recipe_is_compared() {
            let compared = [$(stringify!($name)),*];
            let all: Vec<&str> = RECIPES.iter().map(|recipe| recipe.name).collect();
            assert_eq!(compared[..], all[..]);
            assert!(RECIPES.iter().map(|recipe| recipe.total).sum::<u64>() >= 100_000);
        }
    };
}

compared! {
    load_fresh
    load_any
    load_any_page_size
    load_damaged_empty
    load_damaged_few
    load_damaged_full
    load_damaged_after
    load_wrong_magic
    load_wrong_version
    load_wrong_count
    load_wrong_checksum
    load_small_runs
    load_one_bad_run
    load_noise
    store_any
    store_at_limit
    store_over_longer
}

fn loaded(block: &[u8]) -> Answer {
    let block = block.to_vec();
    Answer::of_library(&Case::Load { block })
}

#[test]
fn fresh_fields_and_their_bytes() {
    let mut fields = [7; FIELDS + 1];
    assert_eq!(yuharopu::superblock_fresh(&mut fields), 0);
    let expected = Block::fresh();
    assert_eq!(fields[..FIELDS - 1], expected.fields[..FIELDS - 1]);
    assert_eq!(fields[FIELDS], 7, "the place after the fields");
    let sealed = expected.sealed();
    assert_eq!(loaded(&sealed).fields, fields[..FIELDS]);

    let mut memory = vec![0; STABLE_PAGE];
    assert_eq!(
        yuharopu::superblock_store(&mut memory, &fields[..FIELDS], &[]),
        0
    );
    assert_eq!(byte_difference(&memory[..block::BYTES], &sealed), None);
    if oracle::AVAILABLE {
        assert_eq!(byte_difference(&memory, &oracle::fresh()), None);
    }
}

#[test]
fn bytes_after_the_prefix_change_no_answer() {
    for (seed, count) in [0, 1, 17, 1_023].into_iter().enumerate() {
        let mut prng = Prng::new(seed as u64);
        let runs = block::normalized_runs(&mut prng, count);
        let mut bytes = Block::any(&mut prng, runs).sealed();
        let clean = loaded(&bytes);
        assert_eq!(clean.number, 0, "seed {seed}");
        for at in block::prefix_len(count)..block::BYTES {
            bytes[at] ^= 0xff;
            assert_eq!(loaded(&bytes), clean, "seed {seed}, byte {at}");
        }
    }
}

#[test]
fn every_damaged_byte_of_the_prefix_is_refused_by_its_number() {
    let mut prng = Prng::new(1);
    let runs = block::normalized_runs(&mut prng, 9);
    let mut bytes = Block::any(&mut prng, runs).sealed();
    let of = |field: usize| {
        let (offset, len) = block::place(field);
        offset..offset + len
    };
    for at in 0..block::prefix_len(9) {
        bytes[at] ^= 0x40;
        let number = loaded(&bytes).number;
        let expected = if of(block::MAGIC).contains(&at) {
            1
        } else if of(block::VERSION).contains(&at) || of(block::LAYOUT).contains(&at) {
            2
        } else {
            3
        };
        assert_eq!(number, expected, "byte {at}");
        bytes[at] ^= 0x40;
    }
}

/// The eighteen 64-bit fields, and the runs behind them; each field has a number of its own.
#[test]
fn field_k_lies_at_16_plus_8k() {
    let mut made = Block::fresh();
    for k in 0..17 {
        made.fields[3 + k] = (k as u64 + 1) * 0x0101_0101_0101_0101;
    }
    made.fields[block::LAYOUT] = block::CURRENT;
    made.fields[block::COUNT] = 1;
    made.runs = vec![0x51, 0x62];
    let mut memory = vec![0; STABLE_PAGE];
    assert_eq!(
        yuharopu::superblock_store(&mut memory, &made.fields, &made.runs),
        0
    );
    let number = |at: usize| u64::from_le_bytes(memory[at..at + 8].try_into().expect("8 bytes"));
    let answer = loaded(&memory);
    for k in 0..18 {
        assert_eq!(number(16 + 8 * k), answer.fields[3 + k], "field {k}");
    }
    assert_eq!(answer.fields[3..20], made.fields[3..20]);
    assert_eq!([18, 19].map(|k| number(16 + 8 * k)), made.runs[..]);
    let mut hashed = memory[..16 + 8 * 20].to_vec();
    hashed[16 + 8 * 17..16 + 8 * 18].fill(0);
    assert_eq!(number(16 + 8 * 17), block::fnv1a64(&hashed));
}

#[test]
fn what_is_stored_loads_again() {
    for seed in 0..300 {
        let mut prng = Prng::new(seed);
        let count = block::run_count(&mut prng);
        let runs = block::normalized_runs(&mut prng, count);
        let mut made = Block::any(&mut prng, runs);
        let mut memory = prng.bytes(STABLE_PAGE);
        let stored = yuharopu::superblock_store(&mut memory, &made.fields, &made.runs);
        assert_eq!(stored, 0, "seed {seed}");
        made.fields[block::PAGE_SIZE] &= 0xffff_ffff;
        let mut answer = loaded(&memory);
        assert_eq!(answer.number, 0, "seed {seed}");
        answer.fields[block::CHECKSUM] = made.fields[block::CHECKSUM];
        assert_eq!(answer.fields, made.fields, "seed {seed}");
    }
}

/// The original tests the list again when it stores; the library leaves that to the loading.
#[test]
fn runs_that_are_not_normalized_are_stored_and_refused_at_loading() {
    for runs in [[4, 4], [5, 4]] {
        let mut block = Block::fresh();
        block.fields[block::COUNT] = 1;
        block.runs = runs.to_vec();
        let mut memory = vec![0; STABLE_PAGE];
        assert_eq!(
            yuharopu::superblock_store(&mut memory, &block.fields, &block.runs),
            0
        );
        assert_eq!(
            byte_difference(&memory[..block::BYTES], &block.sealed()),
            None
        );
        assert_eq!(loaded(&memory).number, 3);
    }
}

//! Buffers that are too short: 35, and nothing changes.

use conformance::block::{self, Block, FIELDS, STABLE_PAGE};
use conformance::prng::Prng;

const TOO_SHORT: u64 = 35;
const TOO_MANY_RUNS: u64 = 31;

fn some_block(count: u64) -> Block {
    let mut prng = Prng::new(count);
    let runs = block::normalized_runs(&mut prng, count);
    Block::any(&mut prng, runs)
}

#[test]
fn fields_of_a_fresh_block() {
    for len in 0..FIELDS {
        let mut fields = vec![9; len];
        assert_eq!(yuharopu::superblock_fresh(&mut fields), TOO_SHORT);
        assert_eq!(fields, vec![9; len]);
    }
}

#[test]
fn block_and_fields_of_a_load() {
    let bytes = some_block(5).sealed();
    for len in 0..block::BYTES {
        let mut fields = [9; FIELDS];
        let answer = yuharopu::superblock_load(&bytes[..len], &mut fields);
        assert_eq!((answer, fields), (TOO_SHORT, [9; FIELDS]), "{len} bytes");
    }
    for len in 0..FIELDS {
        let mut fields = vec![9; len];
        assert_eq!(yuharopu::superblock_load(&bytes, &mut fields), TOO_SHORT);
        assert_eq!(fields, vec![9; len]);
    }
}

#[test]
fn short_buffers_come_before_what_the_block_holds() {
    let mut fields = [9; FIELDS - 1];
    let noise = Prng::new(3).bytes(block::BYTES);
    assert_eq!(yuharopu::superblock_load(&noise, &mut fields), TOO_SHORT);
    assert_eq!(fields, [9; FIELDS - 1]);
}

fn store_unchanged(memory_len: usize, fields: &[u64], runs: &[u64]) -> u64 {
    let before = Prng::new(memory_len as u64).bytes(memory_len);
    let mut memory = before.clone();
    let answer = yuharopu::superblock_store(&mut memory, fields, runs);
    assert!(memory == before, "a refused store changed memory");
    answer
}

#[test]
fn memory_of_a_store() {
    for count in [0, 1, 7, 1_024] {
        let block = some_block(count);
        for len in 0..block::BYTES {
            let answer = store_unchanged(len, &block.fields, &block.runs);
            assert_eq!(answer, TOO_SHORT, "{len} bytes for {count} runs");
        }
    }
}

#[test]
fn fields_and_runs_of_a_store() {
    for count in [0, 1, 7, 1_024] {
        let block = some_block(count);
        for len in 0..FIELDS {
            let answer = store_unchanged(STABLE_PAGE, &block.fields[..len], &block.runs);
            assert_eq!(answer, TOO_SHORT, "{len} fields");
        }
        for len in 0..block.runs.len() {
            let answer = store_unchanged(STABLE_PAGE, &block.fields, &block.runs[..len]);
            assert_eq!(answer, TOO_SHORT, "{len} numbers for {count} runs");
        }
    }
}

/// Counts for which no list is long enough: 31, which asks nothing of the runs.
#[test]
fn counts_that_no_list_can_have() {
    let mut block = some_block(1_024);
    for shift in 11..64 {
        for count in [1 << shift, (1 << shift) + 1, u64::MAX >> (63 - shift)] {
            block.fields[block::COUNT] = count;
            let answer = store_unchanged(STABLE_PAGE, &block.fields, &block.runs);
            assert_eq!(answer, TOO_MANY_RUNS, "{count} runs");
        }
    }
}

#[test]
fn pages_of_a_growth() {
    for len in 0..2 {
        let mut memory = vec![9; 2 * STABLE_PAGE];
        let mut pages = vec![9; len];
        let answer = yuharopu::grow(&mut memory, 0, 1, &mut pages);
        assert_eq!(answer, TOO_SHORT);
        assert_eq!(pages, vec![9; len]);
        assert!(memory == vec![9; 2 * STABLE_PAGE], "memory changed");
    }
}

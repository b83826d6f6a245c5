//! How the cases are made. A recipe and an index give the same case everywhere.

use crate::answer::Case;
use crate::block::{self, Block};
use crate::prng::{mix, Prng};
use std::sync::OnceLock;

pub struct Recipe {
    pub name: &'static str,
    pub total: u64,
    make: fn(u64, &mut Prng) -> Case,
}

impl Recipe {
    pub fn seed(&self, index: u64) -> u64 {
        mix(block::fnv1a64(self.name.as_bytes()) ^ mix(index))
    }

    pub fn case(&self, index: u64) -> Case {
        (self.make)(index, &mut Prng::new(self.seed(index)))
    }
}

const fn recipe(name: &'static str, total: u64, make: fn(u64, &mut Prng) -> Case) -> Recipe {
    Recipe { name, total, make }
}

pub static RECIPES: [Recipe; 17] = [
    recipe("load_fresh", 200, load_fresh),
    recipe("load_any", 20_000, load_any),
    recipe("load_any_page_size", 500, load_any_page_size),
    recipe("load_damaged_empty", 160 * 255, load_damaged_empty),
    recipe("load_damaged_few", (176 + 208 + 432) * 9, load_damaged_few),
    recipe("load_damaged_full", 16_544 * 2, load_damaged_full),
    recipe("load_damaged_after", 3_000, load_damaged_after),
    recipe("load_wrong_magic", 2_000, load_wrong_magic),
    recipe("load_wrong_version", 4_000, load_wrong_version),
    recipe("load_wrong_count", 3_000, load_wrong_count),
    recipe("load_wrong_checksum", 3_000, load_wrong_checksum),
    recipe("load_small_runs", 20_000, load_small_runs),
    recipe("load_one_bad_run", 4_000, load_one_bad_run),
    recipe("load_noise", 2_000, load_noise),
    recipe("store_any", 6_000, store_any),
    recipe("store_at_limit", 500, store_at_limit),
    recipe("store_over_longer", 2_000, store_over_longer),
];

pub fn named(name: &str) -> &'static Recipe {
    let found = RECIPES.iter().find(|recipe| recipe.name == name);
    found.unwrap_or_else(|| panic!("no recipe {name}"))
}

fn load(block: Vec<u8>) -> Case {
    Case::Load { block }
}

/// Puts noise after the prefix and, now and then, after the block.
fn with_noise(mut bytes: Vec<u8>, runs: u64, prng: &mut Prng) -> Vec<u8> {
    prng.fill(&mut bytes[block::prefix_len(runs)..]);
    if prng.below(16) == 0 {
        bytes.extend(prng.bytes(block::STABLE_PAGE - block::BYTES));
    }
    bytes
}

fn any_block(prng: &mut Prng) -> Block {
    let count = block::run_count(prng);
    let runs = block::normalized_runs(prng, count);
    Block::any(prng, runs)
}

fn load_fresh(_index: u64, prng: &mut Prng) -> Case {
    load(with_noise(Block::fresh().sealed(), 0, prng))
}

fn load_any(_index: u64, prng: &mut Prng) -> Case {
    let made = any_block(prng);
    load(with_noise(made.sealed(), made.fields[block::COUNT], prng))
}

fn load_any_page_size(index: u64, prng: &mut Prng) -> Case {
    let mut made = any_block(prng);
    made.fields[block::PAGE_SIZE] = if index < 33 { 1 << index } else { index };
    load(made.sealed())
}

/// The sealed blocks that are damaged byte by byte, by their number of runs.
fn to_damage(count: u64) -> &'static [u8] {
    static BLOCKS: OnceLock<Vec<(u64, Vec<u8>)>> = OnceLock::new();
    let blocks = BLOCKS.get_or_init(|| {
        let mut prng = Prng::new(0xd0);
        let made = |count| {
            let runs = block::normalized_runs(&mut prng, count);
            (count, Block::any(&mut prng, runs).sealed())
        };
        [0, 1, 3, 17, 1_000, 1_024].into_iter().map(made).collect()
    });
    let found = blocks.iter().find(|(runs, _)| *runs == count);
    &found.expect("a block with this many runs").1
}

fn load_damaged(count: u64, at: u64, flip: u8) -> Case {
    let mut bytes = to_damage(count).to_vec();
    bytes[at as usize] ^= flip;
    load(bytes)
}

fn load_damaged_empty(index: u64, _prng: &mut Prng) -> Case {
    load_damaged(0, index / 255, (index % 255) as u8 + 1)
}

fn load_damaged_few(index: u64, _prng: &mut Prng) -> Case {
    let (mut at, flip) = (index / 9, index % 9);
    let flip = if flip < 8 { 1 << flip } else { 0xff };
    for count in [1, 3] {
        let len = block::prefix_len(count) as u64;
        if at < len {
            return load_damaged(count, at, flip);
        }
        at -= len;
    }
    load_damaged(17, at, flip)
}

fn load_damaged_full(index: u64, prng: &mut Prng) -> Case {
    let flip = if index.is_multiple_of(2) {
        1 << prng.below(8)
    } else {
        1 + prng.below(255) as u8
    };
    load_damaged(1_024, index / 2, flip)
}

fn load_damaged_after(_index: u64, prng: &mut Prng) -> Case {
    let count = prng.pick(&[0, 1, 3, 17, 1_000]);
    let prefix = block::prefix_len(count);
    let at = prefix as u64 + prng.below((block::BYTES - prefix) as u64);
    load_damaged(count, at, 1 + prng.below(255) as u8)
}

fn load_wrong_magic(index: u64, prng: &mut Prng) -> Case {
    let mut made = any_block(prng);
    made.fields[block::MAGIC] = match index {
        0..64 => block::magic() ^ (1 << index),
        64 => block::magic().swap_bytes(),
        _ => prng.field(),
    };
    if index.is_multiple_of(3) {
        made.fields[block::VERSION] = prng.below(20);
        made.fields[block::LAYOUT] = prng.below(20);
    }
    load(made.sealed())
}

fn load_wrong_version(index: u64, prng: &mut Prng) -> Case {
    let mut made = any_block(prng);
    let number = match prng.below(3) {
        0 => prng.below(20),
        1 => block::CURRENT | (1 << prng.below(64)),
        _ => prng.field(),
    };
    if index.is_multiple_of(2) {
        made.fields[block::VERSION] = number;
    }
    if index % 3 < 2 {
        made.fields[block::LAYOUT] = prng.pick(&[number, index % 16]);
    }
    if index.is_multiple_of(5) {
        made.fields[block::COUNT] = 1_025;
    }
    let sealed = !index.is_multiple_of(7);
    load(if sealed {
        made.sealed()
    } else {
        made.unsealed()
    })
}

fn load_wrong_count(index: u64, prng: &mut Prng) -> Case {
    let mut made = any_block(prng);
    let count = made.fields[block::COUNT];
    made.fields[block::COUNT] = match index % 5 {
        0 => 1_025 + prng.below(4),
        1 => 1_025 + (prng.number() >> prng.below(64)) % (u64::MAX - 1_025),
        2 => count.wrapping_sub(1),
        3 => prng.below(1_025),
        _ => return load(count_with_high_bit(made, prng)),
    };
    load(made.sealed())
}

/// A count that is right in its low bits alone, under the checksum of the list that these promise.
fn count_with_high_bit(mut made: Block, prng: &mut Prng) -> Vec<u8> {
    let prefix = block::prefix_len(made.fields[block::COUNT]);
    made.fields[block::COUNT] |= 1 << prng.pick(&[16, 31, 32, 48, 63]);
    let mut bytes = made.unsealed();
    let checksum = block::checksum_over(&bytes, prefix);
    block::put(&mut bytes, block::CHECKSUM, checksum);
    bytes
}

fn load_wrong_checksum(index: u64, prng: &mut Prng) -> Case {
    let made = any_block(prng);
    let bytes = made.sealed();
    let prefix = block::prefix_len(made.fields[block::COUNT]);
    let right = block::checksum_over(&bytes, prefix);
    let wrong = match index % 8 {
        0 => right ^ (1 << prng.below(64)),
        1 => block::checksum_over(&bytes, prefix - 1),
        2 => block::checksum_over(&bytes, block::BYTES),
        3 => block::fnv1a64(&made.unsealed()[..prefix]),
        4 => block::checksum_over(&bytes, block::run_place(0)),
        5 => 0,
        6 => right.swap_bytes(),
        _ => right,
    };
    let mut bytes = with_noise(bytes, made.fields[block::COUNT], prng);
    block::put(&mut bytes, block::CHECKSUM, wrong);
    load(bytes)
}

/// Few pages and few runs, so that every way to be or not to be normalized comes up often.
fn load_small_runs(_index: u64, prng: &mut Prng) -> Case {
    let origin = prng.pick(&[0, 0, 1 << 32, u64::MAX - 9]);
    let (numbers, pages) = (2 * prng.below(5), 2 + prng.below(9));
    let mut runs: Vec<u64> = (0..numbers).map(|_| origin + prng.below(pages)).collect();
    if prng.below(2) == 0 {
        runs.sort_unstable();
    }
    load(Block::any(prng, runs).sealed())
}

fn load_one_bad_run(_index: u64, prng: &mut Prng) -> Case {
    let count = 2 + prng.pick(&[0, 1, 5, 100, 1_022]);
    let mut runs = block::normalized_runs(prng, count);
    let at = 2 * prng.below(count - 1) as usize;
    match prng.below(6) {
        0 => runs[at + 1] = runs[at],
        1 => runs.swap(at, at + 1),
        2 => runs[at + 2] = runs[at + 1],
        3 => runs.swap(at + 1, at + 2),
        4 => runs[at + 3] = runs[at + 2],
        _ => {
            runs.swap(at, at + 2);
            runs.swap(at + 1, at + 3);
        }
    }
    load(Block::any(prng, runs).sealed())
}

fn load_noise(index: u64, prng: &mut Prng) -> Case {
    let mut bytes = prng.bytes(block::BYTES);
    if !index.is_multiple_of(4) {
        block::put(&mut bytes, block::MAGIC, block::magic());
    }
    if index % 4 > 1 {
        block::put(&mut bytes, block::VERSION, block::CURRENT);
    }
    if index % 4 > 2 {
        block::put(&mut bytes, block::LAYOUT, block::CURRENT);
        block::put(&mut bytes, block::COUNT, prng.below(4));
    }
    load(bytes)
}

/// Any fields, the current ones seldom: a store takes them as they are.
fn to_store(prng: &mut Prng, count: u64) -> Block {
    let runs = block::normalized_runs(prng, count);
    let mut made = Block::any(prng, runs);
    if prng.below(4) > 0 {
        for field in [block::MAGIC, block::VERSION, block::LAYOUT] {
            made.fields[field] = prng.field();
        }
    }
    made
}

fn store(memory: Vec<u8>, made: Block) -> Case {
    Case::Store {
        memory,
        fields: made.fields,
        runs: made.runs,
    }
}

fn store_any(_index: u64, prng: &mut Prng) -> Case {
    let count = block::run_count(prng);
    let mut made = to_store(prng, count);
    // Numbers after the last run are no part of the list.
    made.runs.extend([prng.number(), prng.number()]);
    store(prng.bytes(block::STABLE_PAGE), made)
}

fn store_at_limit(_index: u64, prng: &mut Prng) -> Case {
    let count = prng.pick(&[1_023, 1_024, 1_025, 1_026, 2_000]);
    let made = to_store(prng, count);
    store(prng.bytes(block::STABLE_PAGE), made)
}

fn store_over_longer(_index: u64, prng: &mut Prng) -> Case {
    let longer = 1 + prng.below(1_024);
    let runs = block::normalized_runs(prng, longer);
    let mut memory = Block::any(prng, runs).sealed();
    memory.resize(block::STABLE_PAGE, 0xa5);
    let count = prng.below(longer);
    store(memory, to_store(prng, count))
}

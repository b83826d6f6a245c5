//! Growth of memory, and counts of pages.

use conformance::answer::byte_difference;
use conformance::block::STABLE_PAGE;
use conformance::prng::Prng;

const PAGE: u64 = STABLE_PAGE as u64;
const GROW_FAILED: u64 = 32;
/// From this count on, the bytes of a count do not fit in 64 bits, and the original refuses by 20 instead.
const UNCOUNTABLE: u64 = 1 << 48;

#[derive(Debug, Eq, PartialEq)]
struct Growth {
    number: u64,
    pages: [u64; 2],
}

fn expected(ceiling: u64, count: u64, end: u64) -> Growth {
    let required = count.max(end.div_ceil(PAGE));
    let refused = required > count && required > ceiling;
    Growth {
        number: if refused { GROW_FAILED } else { 0 },
        pages: [count, required],
    }
}

fn of_original(ceiling: u64, count: u64, end: u64) -> Growth {
    match oracle::grow(ceiling, count, end) {
        Ok(after) => Growth {
            number: 0,
            pages: [count, after],
        },
        Err(refusal) => Growth {
            number: refusal.number,
            pages: refusal.values,
        },
    }
}

fn of_library(memory: &mut [u8], count: u64, end: u64) -> Growth {
    let mut pages = [9; 3];
    let number = yuharopu::grow(memory, count, end, &mut pages);
    assert_eq!(pages[2], 9, "the place after the counts");
    Growth {
        number,
        pages: [pages[0], pages[1]],
    }
}

/// Answer and memory, byte for byte, also where the lent bytes are not in use.
fn compare(before: &[u8], count: u64, end: u64) {
    let ceiling = before.len() as u64 / PAGE;
    let mut memory = before.to_vec();
    let growth = of_library(&mut memory, count, end);
    let place = format!("{} bytes, count {count}, end {end}", before.len());
    assert_eq!(growth, expected(ceiling, count, end), "{place}");
    let mut after = before.to_vec();
    let [from, to] = growth.pages.map(|pages| pages.saturating_mul(PAGE));
    if growth.number == 0 && from < to {
        after[from as usize..to as usize].fill(0);
    }
    assert_eq!(byte_difference(&memory, &after), None, "{place}");
    if oracle::AVAILABLE && count < UNCOUNTABLE {
        assert_eq!(growth, of_original(ceiling, count, end), "{place}");
        compare_bytes(before, count, end, &memory);
    }
}

fn compare_bytes(before: &[u8], count: u64, end: u64, after: &[u8]) {
    let ceiling = before.len() as u64 / PAGE;
    if count > ceiling {
        return;
    }
    let used = &before[..(count * PAGE) as usize];
    let original = oracle::grow_bytes(used, ceiling, end).unwrap_or_else(|_| used.to_vec());
    let (now, unused) = after.split_at(original.len());
    assert_eq!(byte_difference(now, &original), None);
    let unused_before = &before[original.len()..];
    assert_eq!(byte_difference(unused, unused_before), None);
}

fn ends() -> Vec<u64> {
    let mut ends = vec![u64::MAX, u64::MAX - 1, 1 << 63, PAGE << 32];
    ends.extend((0..=4).map(|back| u64::MAX - PAGE + back - 2));
    for pages in 0..=6 {
        let around = |step: u64| (pages * PAGE + step).checked_sub(2);
        ends.extend((0..=4).filter_map(around));
        ends.push(pages * PAGE + PAGE / 2);
    }
    ends
}

#[test]
fn around_every_boundary_of_small_memories() {
    for ceiling in 0..=4 {
        for extra in [0, 1, STABLE_PAGE - 1] {
            // No byte of it is 0, so that one left as it was is seen.
            let mut before = Prng::new(ceiling as u64).bytes(ceiling * STABLE_PAGE + extra);
            before.iter_mut().for_each(|byte| *byte |= 1);
            for count in 0..=ceiling as u64 + 2 {
                ends()
                    .into_iter()
                    .for_each(|end| compare(&before, count, end));
            }
        }
    }
}

#[test]
fn counts_beyond_all_memory() {
    let before = vec![5; 2 * STABLE_PAGE + 1];
    for shift in [16, 32, 47, 48, 49, 63] {
        for count in [(1 << shift) - 1, 1 << shift, (1 << shift) + 1] {
            ends()
                .into_iter()
                .for_each(|end| compare(&before, count, end));
        }
    }
    ends()
        .into_iter()
        .for_each(|end| compare(&before, u64::MAX, end));
}

#[test]
fn page_counts_are_rounded_up() {
    let check = |size: u64| {
        let pages = yuharopu::page_count_for_size(size);
        assert_eq!(pages, size.div_ceil(16_384), "size {size}");
    };
    (0..200_000).for_each(check);
    (0..20_000).for_each(|back| check(u64::MAX - back));
    for shift in 0..64 {
        (0..5).for_each(|step| check((1_u64 << shift).wrapping_add(step).wrapping_sub(2)));
    }
    let mut prng = Prng::new(2);
    (0..100_000).for_each(|_| check(prng.field()));
}

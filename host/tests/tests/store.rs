//! Random lists of calls, run by the library beside the original, a model of documents 01 and 02 and their plain file.
//!
//! `YUHAROPU_SEED` takes the place of the seed and `YUHAROPU_CALLS` that of the number of calls.

use conformance::prng::mix;
use conformance::say;
use conformance::store::counts::Counts;
use conformance::store::shrink::{random, Shape};
use std::sync::atomic::{AtomicU64, Ordering};
use std::time::Instant;

const SEED: u64 = 0x7374_6f72;
const CALLS: u64 = 1_000_000;
const THREADS: u64 = 2;

fn number(variable: &str, otherwise: u64) -> u64 {
    let Ok(text) = std::env::var(variable) else {
        return otherwise;
    };
    let number = match text.strip_prefix("0x") {
        Some(digits) => u64::from_str_radix(digits, 16),
        None => text.replace('_', "").parse(),
    };
    number.unwrap_or_else(|_| panic!("{variable} is a number"))
}

/// One thread's lists, until all threads together have made so many calls.
fn lists(seed: u64, next: &AtomicU64, done: &AtomicU64, total: u64) -> Result<Counts, String> {
    let mut counts = Counts::default();
    while done.load(Ordering::Relaxed) < total {
        let index = next.fetch_add(1, Ordering::Relaxed);
        let shape = Shape {
            calls: 240,
            roomy: index.is_multiple_of(4),
        };
        let before = counts.calls;
        random(mix(seed ^ mix(index)), shape, &mut counts).map_err(|text| {
            done.store(total, Ordering::Relaxed);
            format!("YUHAROPU_SEED={seed:#x}, list {index}: {text}")
        })?;
        done.fetch_add(counts.calls - before, Ordering::Relaxed);
    }
    Ok(counts)
}

#[test]
fn any_list_of_calls() {
    let (seed, total) = (
        number("YUHAROPU_SEED", SEED),
        number("YUHAROPU_CALLS", CALLS),
    );
    let (next, done) = (AtomicU64::new(0), AtomicU64::new(0));
    let start = Instant::now();
    let counts = std::thread::scope(|scope| {
        let threads = (0..THREADS).map(|_| scope.spawn(|| lists(seed, &next, &done, total)));
        let threads: Vec<_> = threads.collect();
        let mut counts = Counts::default();
        for thread in threads {
            let of_it = thread.join().expect("a thread");
            counts.add(&of_it.unwrap_or_else(|text| panic!("{text}")));
        }
        counts
    });
    say(&format!(
        "YUHAROPU_SEED={seed:#x}: {} calls in {} lists, {} answered by the original too, {} direct ones in an import left out there, \
         {} empty writes in an import, {} imports closed by an opening, {} s\n{}",
        counts.calls,
        next.load(Ordering::Relaxed),
        counts.compared,
        counts.left_out,
        counts.empty_in_import,
        counts.closed,
        start.elapsed().as_secs(),
        counts.table()
    ));
    if !oracle::AVAILABLE {
        say("the original's files are not at hand: the lists are compared with the models alone");
    }
    let refused = counts.of("write_at", 10) + counts.of("truncate", 10);
    assert_eq!(counts.left_out, refused, "direct calls in an import");
    if total >= CALLS {
        assert_eq!(counts.missing(), [], "what can arise and never did");
        assert!(counts.short_reads > 1_000, "{counts:?}");
        assert!(counts.steps_left > 1_000, "{counts:?}");
        assert!(counts.full_caches > 100, "{counts:?}");
        assert!(counts.freed > 1_000, "{counts:?}");
        assert!(counts.closed > 1_000, "{counts:?}");
        assert!(counts.of("write_at", 10) > 1_000, "{counts:?}");
        assert!(counts.of("truncate", 10) > 1_000, "{counts:?}");
        assert!(counts.empty_in_import > 1_000, "{counts:?}");
    }
}

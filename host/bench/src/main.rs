//! The time of the library divided by the time of the original, for the same work in the same run.

mod plan;
mod store;

use std::hint::black_box;
use std::time::{Duration, Instant};

const ROUNDS: usize = 21;
const BYTES_A_ROUND: usize = 32 << 20;
const PARTS: &str = "parts";

/// Work that both sides do on the same bytes.
struct Bench {
    name: &'static str,
    len: usize,
    library: fn(&[u8]) -> u64,
    original: fn(&[u8]) -> u64,
}

const BENCHES: [Bench; 2] = [
    Bench {
        name: "fnv1a64 16 KiB",
        len: 16 << 10,
        library: yuharopu::fnv1a64,
        original: oracle::fnv1a64,
    },
    Bench {
        name: "fnv1a64 16 MiB",
        len: 16 << 20,
        library: yuharopu::fnv1a64,
        original: oracle::fnv1a64,
    },
];

fn main() {
    if !oracle::AVAILABLE {
        eprintln!(
            "bench: the original's files are not at hand; name their folder in YUHAROPU_ORACLE_SRC"
        );
        std::process::exit(1);
    }
    let chosen: Vec<String> = std::env::args().skip(1).collect();
    let is_known = |name: &str| name == PARTS || store::GROUPS.iter().any(|(one, _)| *one == name);
    if let Some(name) = chosen.iter().find(|name| !is_known(name)) {
        eprintln!("bench: no group of rows is named {name}");
        std::process::exit(1);
    }
    let is_chosen = |name: &str| chosen.is_empty() || chosen.iter().any(|one| one == name);
    if is_chosen(PARTS) {
        report_parts();
    }
    keep_freed_memory();
    store::head();
    for (name, report) in store::GROUPS {
        if is_chosen(name) {
            report();
        }
    }
}

/// The original's pages are of the heap, which gives freed memory back to the system, or not, by what it saw before. After a
/// block of this size was freed, glibc keeps up to twice that: every group then finds the heap alike.
fn keep_freed_memory() {
    drop(black_box(vec![1_u8; 31 << 20]));
}

/// The hash and the plan, each by itself.
fn report_parts() {
    println!("library / original, median of {ROUNDS} alternating rounds (library, original)");
    BENCHES.iter().for_each(report);
    for (recorded, dirty) in [(64, 64), (1_024, 1_024), (4_096, 4_096)] {
        plan::report(recorded, dirty);
    }
    plan::report_moves(4_096);
    println!();
}

fn report(bench: &Bench) {
    let bytes: Vec<u8> = (0..bench.len)
        .map(|at| (at * 31 + at / 251) as u8)
        .collect();
    assert_eq!(
        (bench.library)(&bytes),
        (bench.original)(&bytes),
        "{}",
        bench.name
    );
    let (mut library, mut original) = (Vec::new(), Vec::new());
    for _ in 0..ROUNDS {
        library.push(time(bench.library, &bytes));
        original.push(time(bench.original, &bytes));
    }
    let (library, original) = (median(library), median(original));
    let ratio = library.as_secs_f64() / original.as_secs_f64();
    println!("{}: {ratio:.3} ({library:?}, {original:?})", bench.name);
}

fn time(work: fn(&[u8]) -> u64, bytes: &[u8]) -> Duration {
    let times = BYTES_A_ROUND / bytes.len();
    let began = Instant::now();
    for _ in 0..times {
        black_box(work(black_box(bytes)));
    }
    began.elapsed()
}

fn median(mut times: Vec<Duration>) -> Duration {
    times.sort_unstable();
    times[times.len() / 2]
}

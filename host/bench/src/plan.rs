//! The plan of a commit on an image of 1,024 zero runs, beside the commits of the original that make the same plan.

use crate::store::image::{DB_SIZE, PAGE_COUNT};
use crate::{median, ROUNDS};
use oracle::{Store, Superblock};
use std::hint::black_box;
use std::time::{Duration, Instant};

const PAGE: u64 = 16_384;
const RUNS: u64 = 1_024;
/// From run to run; the page before each run is in use.
const STRIDE: u64 = 8;
const PAGES: u64 = RUNS * STRIDE;
const GROWN_AT_MOST: u64 = 102;
const CALLS: u32 = 16;

/// The numbers that the library's plan is given.
struct Input {
    extents: Vec<u64>,
    old_size: u64,
    new_size: u64,
    record: Vec<u64>,
    dirty: Vec<u64>,
}

fn numbers(runs: &[(u64, u64)]) -> Vec<u64> {
    runs.iter()
        .flat_map(|(start, end)| [*start, *end])
        .collect()
}

impl Input {
    fn work(&self) -> Vec<u64> {
        vec![0; 2 * (1_025 + 2 * self.dirty.len())]
    }

    /// The numbers of the runs that the plan leaves.
    fn plan<'a>(&self, work: &'a mut [u64]) -> &'a [u64] {
        let mut count = [0];
        let number = yuharopu::plan(
            work,
            &self.extents,
            self.old_size,
            self.new_size,
            &self.record,
            &self.dirty,
            &mut count,
        );
        assert_eq!(number, 0, "an accepted plan");
        &work[..2 * count[0] as usize]
    }

    fn time(&self) -> Duration {
        let mut work = self.work();
        let began = Instant::now();
        for _ in 0..CALLS {
            black_box(self.plan(black_box(&mut work)));
        }
        began.elapsed() / CALLS
    }
}

/// An update: truncations to whole pages, each of which is recorded, then pages written whole.
struct Update {
    sizes: Vec<u64>,
    pages: Vec<u64>,
}

impl Update {
    /// The pages lie in the runs and come in no order: they split them in between, but each run is one in the end.
    fn of(entries: u64, dirty: u64) -> Self {
        let size = |at: u64| (PAGES + 1 + at * 37 % (GROWN_AT_MOST - 1)) * PAGE;
        let page = |at: u64| {
            let mixed = at * 2_654_435_761 % dirty;
            let run = mixed * RUNS.div_ceil(dirty) % RUNS;
            run * STRIDE + 1 + mixed / RUNS
        };
        Self {
            sizes: (0..entries).map(size).collect(),
            pages: (0..dirty).map(page).collect(),
        }
    }

    fn make(&self, store: &mut Store) {
        store.begin_update().expect("no update is open");
        for size in &self.sizes {
            store.truncate(*size).expect("a truncation");
        }
        let bytes = vec![7; PAGE as usize];
        for page in &self.pages {
            store.write_at(page * PAGE, &bytes).expect("a write");
        }
    }

    fn commit(&self, store: &mut Store) -> Duration {
        self.make(store);
        let began = Instant::now();
        store.commit_update().expect("an accepted commit");
        began.elapsed()
    }

    /// What its commit's plan is made from.
    fn input(&self, store: &mut Store) -> Input {
        let extents = numbers(&store.superblock().expect("a superblock").runs);
        self.make(store);
        let draft = store.take_draft().expect("an open update");
        Input {
            extents,
            old_size: PAGES * PAGE,
            new_size: draft.size,
            record: numbers(&draft.record),
            dirty: draft.dirty_pages.iter().map(|(page, _)| *page).collect(),
        }
    }
}

/// The runs of the image; the last one reaches past the end.
fn image_runs() -> Vec<(u64, u64)> {
    let run = |at| (at * STRIDE + 1, (at + 1) * STRIDE);
    let mut runs: Vec<(u64, u64)> = (0..RUNS).map(run).collect();
    runs[RUNS as usize - 1].1 = PAGES + GROWN_AT_MOST;
    runs
}

fn image(runs: Vec<(u64, u64)>) -> Store {
    let fresh = oracle::fresh();
    let mut fields = oracle::load(&fresh).expect("a superblock").fields;
    fields[DB_SIZE] = PAGES * PAGE;
    fields[PAGE_COUNT] = PAGES;
    let bytes = oracle::store(&fresh, &Superblock { fields, runs }).expect("normalized runs");
    let count = (PAGES + 2 * GROWN_AT_MOST) / 4;
    Store::open(&bytes, count, count).expect("an image")
}

/// An update after which the image has its first runs again.
fn restore(store: &mut Store) {
    let used = (0..RUNS).map(|at| at * STRIDE);
    let update = Update {
        sizes: vec![0, PAGES * PAGE],
        pages: used.collect(),
    };
    update.commit(store);
    let runs = store.superblock().expect("a superblock").runs;
    assert_eq!(runs, image_runs());
}

pub fn report(entries: u64, dirty: u64) {
    let update = Update::of(entries, dirty);
    let pages_alone = Update {
        sizes: Vec::new(),
        pages: update.pages.clone(),
    };
    let (mut store, mut bare) = (image(image_runs()), image(Vec::new()));
    let input = update.input(&mut store);
    let (mut library, mut original, mut baseline) = (Vec::new(), Vec::new(), Vec::new());
    for _ in 0..ROUNDS {
        library.push(input.time());
        original.push(update.commit(&mut store));
        let runs = store.superblock().expect("a superblock").runs;
        assert_eq!(input.plan(&mut input.work()), numbers(&runs), "one plan");
        restore(&mut store);
        baseline.push(pages_alone.commit(&mut bare));
    }
    let (library, original) = (median(library), median(original));
    print(entries, dirty, library, original, median(baseline));
}

fn print(entries: u64, dirty: u64, library: Duration, original: Duration, baseline: Duration) {
    let ratio = |of: Duration| library.as_secs_f64() / of.as_secs_f64();
    println!(
        "plan, {RUNS} runs, {entries} recorded, {dirty} dirty: {:.4} ({library:?}, {original:?}: the original's \
         commit, which writes its pages too; {baseline:?} of that with no runs and no record); {:.4} without that",
        ratio(original),
        ratio(original.saturating_sub(baseline)),
    );
}

/// Each addition and each removal moves the whole list; no update of the original records such runs.
pub fn report_moves(entries: u64) {
    let runs: Vec<(u64, u64)> = (0..RUNS)
        .map(|at| (PAGES + 2 * at, PAGES + 2 * at + 1))
        .collect();
    let front: Vec<u64> = (0..entries).map(|at| 2 * (entries - at)).collect();
    let record: Vec<(u64, u64)> = front.iter().map(|page| (*page, page + 1)).collect();
    let input = Input {
        extents: numbers(&runs),
        old_size: PAGES * PAGE * 2,
        new_size: PAGES * PAGE * 2,
        record: numbers(&record),
        dirty: front.iter().rev().copied().collect(),
    };
    let times = (0..ROUNDS).map(|_| input.time()).collect();
    println!(
        "plan, {RUNS} runs, {entries} recorded, {entries} dirty, each at the front of the list: library alone {:?}",
        median(times)
    );
}

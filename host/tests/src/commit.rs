//! Commits of the original, seen as plans.

use crate::block::{Block, COUNT, PAGE_COUNT, SIZE, STABLE_PAGE};
use crate::plan::{Input, Run, MAX_RUNS, PAGE};
use crate::plan_case::{far_runs, size};
use crate::prng::Prng;
use oracle::{Draft, Refusal, Store, Superblock};

/// So much memory that no commit here lacks any; the stand-in holds only what is written.
const STABLE_PAGES: u64 = 1 << 47;
const BUDGET: u64 = 30;
const TOO_MANY_RUNS: u64 = 31;

/// A call in an update.
#[derive(Clone, Copy, Debug)]
pub enum Step {
    Truncate(u64),
    Write {
        offset: u64,
        len: u64,
    },
    /// At most this many dirty pages from now on.
    Budget(u64),
}

/// An image and an update of it.
#[derive(Clone, Debug)]
pub struct Case {
    pub size: u64,
    pub runs: Vec<Run>,
    pub steps: Vec<Step>,
}

/// The runs after a commit, or none for 31.
pub type Committed = Option<Vec<Run>>;

impl Case {
    /// What the commit's plan is made from, and how the commit ends.
    pub fn committed(&self) -> (Input, Committed) {
        let image = self.image();
        let mut store = open(&image);
        self.update(&mut store);
        let draft = store.take_draft().expect("an open update");
        self.update(&mut store);
        let answer = store.commit_update();
        (self.input(draft), after(&mut store, answer))
    }

    /// How an update of a single call ends where the call is made with no update open.
    pub fn direct(&self) -> Committed {
        let mut store = open(&self.image());
        let [step] = self.steps[..] else {
            panic!("a single call");
        };
        let answer = step.call(&mut store);
        after(&mut store, answer)
    }

    fn image(&self) -> Vec<u8> {
        let mut block = Block::fresh();
        block.fields[SIZE] = self.size;
        block.fields[PAGE_COUNT] = self.size.div_ceil(PAGE);
        block.fields[COUNT] = self.runs.len() as u64;
        let made = Superblock {
            fields: block.fields,
            runs: self.runs.clone(),
        };
        oracle::store(&vec![0; STABLE_PAGE], &made).expect("normalized runs")
    }

    fn update(&self, store: &mut Store) {
        assert_eq!(store.begin_update(), Ok(self.size));
        for step in &self.steps {
            if let Err(refusal) = step.call(store) {
                assert_eq!(refusal.number, BUDGET, "{step:?}");
            }
        }
    }

    fn input(&self, draft: Draft) -> Input {
        let pages = draft.dirty_pages.iter().map(|(page, _)| *page);
        Input {
            old_size: self.size,
            new_size: draft.size,
            extents: self.runs.clone(),
            record: draft.record,
            dirty: pages.collect(),
        }
    }
}

impl Step {
    fn call(self, store: &mut Store) -> Result<(), Refusal> {
        match self {
            Step::Truncate(size) => store.truncate(size),
            Step::Write { offset, len } => store.write_at(offset, &vec![7; len as usize]),
            Step::Budget(pages) => {
                store.set_write_budget(pages, u64::MAX);
                Ok(())
            }
        }
    }
}

fn open(image: &[u8]) -> Store {
    Store::open(image, STABLE_PAGES, STABLE_PAGES).expect("an image")
}

fn after(store: &mut Store, answer: Result<(), Refusal>) -> Committed {
    match answer {
        Ok(()) => Some(store.superblock().expect("a superblock").runs),
        Err(refusal) => {
            assert_eq!(refusal.number, TOO_MANY_RUNS, "{refusal:?}");
            None
        }
    }
}

/// A normalized list of runs, often as many as an image may have: some in a file of `pages` pages or past its end, and
/// the others far behind, also at the end of all numbers.
fn image_runs(prng: &mut Prng, pages: u64) -> Vec<Run> {
    let near = prng.below(6) as usize;
    let first = prng.below(pages + 2);
    let mut runs = far_runs(prng, first, near);
    let far = match prng.below(4) {
        0 => prng.below(1_000) as usize,
        _ => MAX_RUNS - near - prng.pick(&[0, 0, 0, 1, 2]),
    };
    let first = prng.pick(&[100, 10_000, 1 << 47, u64::MAX - 6_000]);
    runs.extend(far_runs(prng, first, far));
    runs
}

fn step(prng: &mut Prng, pages: u64) -> Step {
    let at = prng.below(pages + 4) * PAGE;
    match prng.below(10) {
        0..=3 => Step::Truncate(size(prng, pages + 6)),
        4 => Step::Truncate(prng.below(1 << 62)),
        5..=7 => Step::Write {
            offset: at,
            len: PAGE,
        },
        8 => Step::Write {
            offset: at + prng.below(PAGE),
            len: prng.pick(&[0, 1, PAGE, 2 * PAGE + 5]),
        },
        _ => Step::Budget(prng.below(6)),
    }
}

/// An image and a few calls, from a seed; often truncations to whole pages, which make no page dirty.
pub fn any(prng: &mut Prng) -> Case {
    let pages = prng.pick(&[1, 4, 12]);
    let runs = image_runs(prng, pages);
    let size = size(prng, pages);
    let count = prng.pick(&[1, 2, 4, 10]);
    let step = match prng.below(3) {
        0 => |prng: &mut Prng, pages| Step::Truncate(prng.below(pages + 8) * PAGE),
        _ => step,
    };
    let mut steps: Vec<Step> = (0..count).map(|_| step(prng, pages)).collect();
    if prng.below(6) == 0 {
        steps.extend(refused_growth(prng, pages));
    }
    Case { size, runs, steps }
}

/// A write that is refused once its last page is dirty, which then lies past the end.
fn refused_growth(prng: &mut Prng, pages: u64) -> [Step; 2] {
    let offset = size(prng, pages);
    let len = 9 * PAGE + 5;
    [Step::Budget(1 + prng.below(3)), Step::Write { offset, len }]
}

/// A file with runs all over it, and page writes that split, shrink and delete them.
pub fn scattered(prng: &mut Prng) -> Case {
    let count = MAX_RUNS - prng.below(3) as usize;
    let first = prng.below(3);
    let runs = far_runs(prng, first, count);
    let pages = prng.pick(&[500, 2_000, 6_000]);
    let write = |prng: &mut Prng| {
        let (start, end) = runs[prng.below(pages / 6) as usize];
        let page = start + prng.below(end - start + 1);
        Step::Write {
            offset: page * PAGE,
            len: PAGE,
        }
    };
    let mut steps: Vec<Step> = (0..prng.below(12)).map(|_| write(prng)).collect();
    if prng.below(3) == 0 {
        steps.push(Step::Truncate(size(prng, pages + 50)));
    }
    let size = pages * PAGE;
    Case { size, runs, steps }
}

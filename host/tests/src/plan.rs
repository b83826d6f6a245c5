//! The zero runs after a commit, computed apart from the library and from the original, on two kinds of page sets.

use std::collections::BTreeSet;

pub const PAGE: u64 = 16_384;
pub const MAX_RUNS: usize = crate::block::MAX_RUNS as usize;

/// A start and an end page, the end excluded.
pub type Run = (u64, u64);

/// What a plan is made from.
#[derive(Clone, Debug, Default, Eq, PartialEq)]
pub struct Input {
    pub old_size: u64,
    pub new_size: u64,
    pub extents: Vec<Run>,
    pub record: Vec<Run>,
    pub dirty: Vec<u64>,
}

/// Why there are too many runs: after an addition, or in the end.
#[derive(Clone, Copy, Debug, Eq, PartialEq)]
pub enum TooMany {
    Added,
    Left,
}

pub type Plan = Result<Vec<Run>, TooMany>;

impl Input {
    /// The final count.
    pub fn pages(&self) -> u64 {
        self.new_size.div_ceil(PAGE)
    }

    /// Each as often as it is listed.
    fn dirty_below(&self) -> Vec<u64> {
        let below = |page: &u64| *page < self.pages();
        self.dirty.iter().copied().filter(below).collect()
    }

    fn additions(&self) -> Vec<Run> {
        let (old, new) = (self.old_size.div_ceil(PAGE), self.pages());
        let mut additions = vec![(old.min(new), old.max(new))];
        additions.extend(&self.record);
        additions
    }

    /// By a plain set of page numbers, which have to be few.
    pub fn by_pages(&self) -> Plan {
        self.settle(&mut BTreeSet::new())
    }

    /// By parts of the number line, for any page numbers.
    pub fn by_parts(&self) -> Plan {
        self.settle(&mut Parts::of(self))
    }

    fn settle(&self, set: &mut impl PageSet) -> Plan {
        let dirty = self.dirty_below();
        let limit = MAX_RUNS + dirty.len();
        self.extents.iter().for_each(|run| set.add(*run));
        for run in self.additions() {
            set.add(run);
            if set.runs().len() > limit {
                return Err(TooMany::Added);
            }
        }
        dirty.iter().for_each(|page| set.remove(*page));
        let runs = set.runs();
        if runs.len() > MAX_RUNS {
            return Err(TooMany::Left);
        }
        Ok(runs)
    }

    /// The same with normalized extents, no empty entry in the record and no dirty page twice.
    pub fn tidied(mut self) -> Self {
        let mut parts = Parts::of(&self);
        self.extents.iter().for_each(|run| parts.add(*run));
        self.extents = parts.runs();
        self.record.retain(|(start, end)| start < end);
        let mut seen = BTreeSet::new();
        self.dirty.retain(|page| seen.insert(*page));
        self
    }
}

pub fn is_normalized(runs: &[Run]) -> bool {
    runs.iter().all(|(start, end)| start < end) && runs.windows(2).all(|pair| pair[0].1 < pair[1].0)
}

/// Two numbers a run, start then end.
pub fn numbers(runs: &[Run]) -> Vec<u64> {
    runs.iter()
        .flat_map(|(start, end)| [*start, *end])
        .collect()
}

trait PageSet {
    fn add(&mut self, run: Run);
    fn remove(&mut self, page: u64);
    /// The maximal runs, in order.
    fn runs(&self) -> Vec<Run>;
}

impl PageSet for BTreeSet<u64> {
    fn add(&mut self, (start, end): Run) {
        self.extend(start..end);
    }

    fn remove(&mut self, page: u64) {
        BTreeSet::remove(self, &page);
    }

    fn runs(&self) -> Vec<Run> {
        let mut runs: Vec<Run> = Vec::new();
        for page in self {
            match runs.last_mut() {
                Some((_, end)) if end == page => *end += 1,
                _ => runs.push((*page, page + 1)),
            }
        }
        runs
    }
}

/// The number line cut wherever an input has an end of a run or a dirty page: each part is in the set as a whole.
struct Parts {
    cuts: Vec<u64>,
    held: Vec<bool>,
}

impl Parts {
    fn of(input: &Input) -> Self {
        let runs = input.extents.iter().copied().chain(input.additions());
        let pages = input.dirty_below().into_iter().map(|page| (page, page + 1));
        let ends = runs.chain(pages).flat_map(|(start, end)| [start, end]);
        let cuts: Vec<u64> = ends.collect::<BTreeSet<u64>>().into_iter().collect();
        let held = vec![false; cuts.len()];
        Self { cuts, held }
    }

    fn place(&self, cut: u64) -> usize {
        self.cuts.binary_search(&cut).expect("a cut of the input")
    }
}

impl PageSet for Parts {
    fn add(&mut self, (start, end): Run) {
        if start < end {
            let parts = self.place(start)..self.place(end);
            self.held[parts].fill(true);
        }
    }

    fn remove(&mut self, page: u64) {
        let part = self.place(page);
        self.held[part] = false;
    }

    fn runs(&self) -> Vec<Run> {
        let mut runs = Vec::new();
        let mut start = None;
        for (cut, held) in self.cuts.iter().zip(&self.held) {
            match (start, held) {
                (None, true) => start = Some(*cut),
                (Some(first), false) => {
                    runs.push((first, *cut));
                    start = None;
                }
                _ => {}
            }
        }
        runs
    }
}

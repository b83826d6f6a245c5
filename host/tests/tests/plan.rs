//! The plan of a commit: the library against two other computations of it, and against the original's commits.

use conformance::commit::{self, Case, Step};
use conformance::plan::{numbers, Input, Plan, Run, TooMany, PAGE};
use conformance::plan_case::{far_runs, shuffle, Kind};
use conformance::plan_row::{self, input, single, with};
use conformance::prng::{mix, Prng};
use std::fmt::Debug;

const TOO_MANY_RUNS: u64 = 31;
const TOO_SHORT: u64 = 35;
const NOISE: u64 = 0x5a5a_5a5a_5a5a_5a5a;

fn least_work(input: &Input) -> usize {
    2 * (1_025 + 2 * input.dirty.len())
}

/// The library's number, its answer and the work list at exit, which had noise in `len` places.
fn of_library(input: &Input, len: usize) -> (u64, u64, Vec<u64>) {
    let mut work = vec![NOISE; len];
    let mut answer = [NOISE; 2];
    let number = yuharopu::plan(
        &mut work,
        &numbers(&input.extents),
        input.old_size,
        input.new_size,
        &numbers(&input.record),
        &input.dirty,
        &mut answer,
    );
    assert_eq!(answer[1], NOISE, "the place after the answer");
    (number, answer[0], work)
}

/// Holds the library to the plan, by the whole work list.
fn agree(input: &Input, plan: &Plan, extra: usize, place: &str) {
    let len = least_work(input) + extra;
    let (number, count, work) = of_library(input, len);
    let runs: &[Run] = plan.as_deref().unwrap_or(&[]);
    let expected = plan.as_ref().map_or(TOO_MANY_RUNS, |_| 0);
    assert_eq!(number, expected, "{place}: {} runs", runs.len());
    let shown = plan.as_ref().map_or(NOISE, |runs| runs.len() as u64);
    assert_eq!(count, shown, "{place}: the number of runs");
    let mut whole = numbers(runs);
    whole.resize(len, 0);
    let differs = (0..len).find(|at| work[*at] != whole[*at]);
    assert_eq!(
        differs.map(|at| (at, work[at], whole[at])),
        None,
        "{place}: place, number and the number that belongs there"
    );
}

/// How often a plan ended in each way.
#[derive(Debug, Default)]
struct Endings {
    kept: u64,
    added: u64,
    left: u64,
}

impl Endings {
    fn count(&mut self, plan: &Plan) {
        match plan {
            Ok(_) => self.kept += 1,
            Err(TooMany::Added) => self.added += 1,
            Err(TooMany::Left) => self.left += 1,
        }
    }

    fn at_least(&self, kept: u64, added: u64, left: u64) {
        let enough = self.kept >= kept && self.added >= added && self.left >= left;
        assert!(enough, "{self:?} are too few of a kind");
    }
}

fn seeded(what: impl Debug, index: u64) -> (Prng, String) {
    let seed = mix(0x706c_616e ^ mix(index));
    let place = format!("{what:?}, index {index}, seed {seed:#018x}");
    (Prng::new(seed), place)
}

fn compare(kind: Kind, total: u64, plan_of: fn(&Input) -> Plan) -> Endings {
    let mut endings = Endings::default();
    for index in 0..total {
        let (mut prng, place) = seeded(kind, index);
        let input = kind.input(&mut prng);
        let plan = plan_of(&input);
        agree(&input, &plan, prng.pick(&[0, 0, 1, 7]), &place);
        endings.count(&plan);
    }
    endings
}

#[test]
fn small_pages() {
    compare(Kind::Small, 20_000, Input::by_pages).at_least(20_000, 0, 0);
}

#[test]
fn near_the_limits() {
    compare(Kind::Full, 6_000, Input::by_pages).at_least(1_500, 500, 100);
}

#[test]
fn many_of_each_kind() {
    compare(Kind::Crowded, 200, Input::by_pages).at_least(80, 8, 3);
}

#[test]
fn any_numbers() {
    compare(Kind::Wide, 20_000, Input::by_parts).at_least(20_000, 0, 0);
}

#[test]
fn the_two_computations_agree() {
    for (kind, total) in [(Kind::Small, 5_000), (Kind::Full, 500), (Kind::Crowded, 20)] {
        for index in 0..total {
            let (mut prng, place) = seeded(kind, index);
            let input = kind.input(&mut prng);
            assert_eq!(input.by_parts(), input.by_pages(), "{place}");
        }
    }
}

/// The same set in another list: runs in two parts that touch or overlap, runs again, empty runs, in any order.
fn restated(prng: &mut Prng, extents: &[Run]) -> Vec<Run> {
    let mut list = Vec::new();
    for &(start, end) in extents {
        let cut = start + prng.below(end - start + 1);
        list.extend(match prng.below(4) {
            0 => vec![(start, cut), (cut, end)],
            1 => vec![(cut, end), (start, end)],
            2 => vec![(start, end), (cut, cut), (end, start)],
            _ => vec![(start, end)],
        });
    }
    shuffle(prng, &mut list);
    list
}

#[test]
fn the_set_decides_not_its_list() {
    for index in 0..3_000 {
        let (mut prng, place) = seeded(Kind::Small, index);
        let mut input = Kind::Small.input(&mut prng).tidied();
        input.extents.extend(far_runs(&mut prng, 80, 200));
        let plan = input.by_pages();
        input.extents = restated(&mut prng, &input.extents);
        agree(&input, &plan, 0, &place);
    }
}

#[test]
fn rows_made_by_hand() {
    for (table, rows) in plan_row::tables().into_iter().enumerate() {
        for (row, (input, runs)) in rows.into_iter().enumerate() {
            let place = format!("table {table}, row {row}");
            let plan = input.by_parts();
            assert_eq!(plan.clone().ok(), runs, "{place}");
            agree(&input, &plan, 0, &place);
        }
    }
}

/// Each recorded run stays apart and each dirty page splits a run: 1,024 + 2 x d runs before they are counted last.
#[test]
fn the_work_list_is_used_to_its_end() {
    let long: Vec<Run> = (0..1_024).map(|at| (16 * at, 16 * at + 9)).collect();
    let end = 16 * 1_024;
    let sizes = (end * PAGE, end * PAGE);
    for dirty in [1, 2, 50, 1_000, 4_096] {
        let place = format!("{dirty} pages");
        let page = |at: u64| 16 * (at % 1_024) + 1 + 2 * (at / 1_024);
        let pages: Vec<u64> = (0..dirty).map(page).collect();
        let used = input(sizes, &long, &single(end, dirty), &pages);
        assert_eq!(used.by_parts(), Err(TooMany::Left), "{place}");
        agree(&used, &Err(TooMany::Left), 0, &place);
        let passed = input(sizes, &long, &single(end, dirty + 1), &pages);
        assert_eq!(passed.by_parts(), Err(TooMany::Added), "{place}");
        agree(&passed, &Err(TooMany::Added), 0, &place);
    }
}

/// A list of an odd length ends with a number that is no run.
#[test]
fn a_start_without_its_end_is_no_run() {
    let mut work = [NOISE; 2_050];
    let mut answer = [NOISE];
    let number = yuharopu::plan(&mut work, &[1, 2, 9], 0, 0, &[4, 5, 7], &[], &mut answer);
    assert_eq!((number, answer[0]), (0, 2));
    assert_eq!(work[..5], [1, 2, 4, 5, 0]);
    let mut extents = numbers(&single(3, 1_024));
    extents.push(1);
    let number = yuharopu::plan(&mut work, &extents, 0, 0, &[], &[], &mut answer);
    assert_eq!((number, answer[0]), (0, 1_024));
    assert_eq!(work[..2_048], extents[..2_048]);
}

fn refused_unchanged(input: &Input, work_len: usize, answer_len: usize) {
    let mut work = vec![NOISE; work_len];
    let mut answer = vec![NOISE; answer_len];
    let number = yuharopu::plan(
        &mut work,
        &numbers(&input.extents),
        input.old_size,
        input.new_size,
        &numbers(&input.record),
        &input.dirty,
        &mut answer,
    );
    assert_eq!(number, TOO_SHORT, "{work_len} numbers, {answer_len} places");
    assert!(work.iter().all(|number| *number == NOISE), "work changed");
    assert!(
        answer.iter().all(|number| *number == NOISE),
        "answer changed"
    );
}

#[test]
fn short_buffers() {
    for (input, _) in &plan_row::tables().concat() {
        let least = least_work(input);
        refused_unchanged(input, least, 0);
        (least - 70..least).for_each(|len| refused_unchanged(input, len, 1));
    }
    for dirty in [0, 1, 9, 1_024] {
        let pages: Vec<u64> = (0..dirty).collect();
        let input = input((0, PAGE), &[(0, 3)], &[(1, 2)], &pages);
        (0..least_work(&input)).for_each(|len| refused_unchanged(&input, len, 1));
    }
}

#[test]
fn more_extents_than_an_image_has() {
    for count in [1_025, 1_026, 2_048, 5_000] {
        for extents in [single(0, count), vec![(3, 3); count as usize]] {
            refused_unchanged(&input((0, 0), &extents, &[], &[]), 20_000, 1);
        }
    }
}

/// A commit of the original as a plan: the record and the dirty pages are those of its update.
fn compare_commit(case: &Case, place: &str) -> (Input, Plan) {
    let (input, committed) = case.committed();
    let plan = input.by_parts();
    let text = || format!("{place}, {:?} from size {}", case.steps, case.size);
    assert_eq!(plan.clone().ok(), committed, "{}", text());
    agree(&input, &plan, 0, &text());
    (input, plan)
}

fn original_is_absent() -> bool {
    if !oracle::AVAILABLE {
        conformance::say(
            "the original's files are not at hand: plans are not compared with its commits",
        );
    }
    !oracle::AVAILABLE
}

fn compare_commits(total: u64, make: fn(&mut Prng) -> Case) -> (Endings, u64) {
    let mut endings = Endings::default();
    let mut past = 0;
    for index in 0..total {
        let (mut prng, place) = seeded("commit", index);
        let case = make(&mut prng);
        let (input, plan) = compare_commit(&case, &place);
        endings.count(&plan);
        past += u64::from(input.dirty.iter().any(|page| *page >= input.pages()));
        if let [Step::Truncate(_) | Step::Write { .. }] = case.steps[..] {
            assert_eq!(
                case.direct(),
                plan.ok(),
                "{place}: {:?}, direct",
                case.steps
            );
        }
    }
    (endings, past)
}

#[test]
fn commits_of_the_original() {
    if original_is_absent() {
        return;
    }
    let (endings, past) = compare_commits(4_000, commit::any);
    endings.at_least(2_000, 100, 100);
    assert!(
        past >= 30,
        "{past} updates with a dirty page past the end are too few"
    );
}

#[test]
fn commits_of_the_original_to_scattered_pages() {
    if original_is_absent() {
        return;
    }
    compare_commits(1_000, commit::scattered)
        .0
        .at_least(500, 0, 30);
}

/// Refused by the limit in between alone: the size comes back, and 5-9 would fit.
#[test]
fn a_commit_refused_by_its_record_alone() {
    if original_is_absent() {
        return;
    }
    let mut case = Case {
        size: 5 * PAGE,
        runs: with(vec![(8, 9)], &single(100, 1_023)),
        steps: [6, 8, 5].map(|pages| Step::Truncate(pages * PAGE)).to_vec(),
    };
    let (input, plan) = compare_commit(&case, "three truncations");
    assert_eq!(input.record, [(5, 6), (6, 8), (5, 8)]);
    assert_eq!(plan, Err(TooMany::Added));
    case.steps.remove(0);
    let (_, plan) = compare_commit(&case, "two truncations");
    assert_eq!(plan, Ok(with(vec![(5, 9)], &single(100, 1_023))));
}

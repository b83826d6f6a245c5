//! Plans made by hand.

use crate::plan::{Input, Run, PAGE};

/// An input and the runs that it leaves, or none for 31.
pub type Row = (Input, Option<Vec<Run>>);

/// So many runs of one page, a page apart.
pub fn single(first: u64, count: u64) -> Vec<Run> {
    let run = |at| (first + 2 * at, first + 2 * at + 1);
    (0..count).map(run).collect()
}

pub fn with(mut runs: Vec<Run>, others: &[Run]) -> Vec<Run> {
    runs.extend(others);
    runs
}

pub fn input(sizes: (u64, u64), extents: &[Run], record: &[Run], dirty: &[u64]) -> Input {
    Input {
        old_size: sizes.0,
        new_size: sizes.1,
        extents: extents.to_vec(),
        record: record.to_vec(),
        dirty: dirty.to_vec(),
    }
}

fn kept(sizes: (u64, u64), e: &[Run], r: &[Run], d: &[u64], runs: &[Run]) -> Row {
    (input(sizes, e, r, d), Some(runs.to_vec()))
}

fn too_many(sizes: (u64, u64), e: &[Run], r: &[Run], d: &[u64]) -> Row {
    (input(sizes, e, r, d), None)
}

/// The examples of the scope that speak of runs alone.
fn rows_of_the_scope() -> Vec<Row> {
    let odd = single(1, 1_024);
    let wide = with(vec![(1, 4)], &single(6, 1_023));
    let one_more = (2_049 * PAGE, 2_050 * PAGE);
    let here = (2_060 * PAGE, 2_060 * PAGE);
    vec![
        kept((0, 16_385), &[], &[(0, 2)], &[1], &[(0, 1)]),
        kept((0, 1), &[], &[(0, 1)], &[0], &[]),
        kept((16_385, 16_384), &[(0, 1)], &[(1, 2)], &[], &[(0, 2)]),
        too_many(one_more, &odd, &[(2_049, 2_050)], &[]),
        kept(one_more, &odd, &[(2_049, 2_050)], &[2_049], &odd),
        too_many(here, &wide, &[], &[2]),
    ]
}

/// Rows around the limits, on images of 1,024 runs.
fn rows_of_the_limits() -> Vec<Row> {
    let far = single(100, 1_023);
    let (near, merged) = (with(vec![(8, 9)], &far), with(vec![(5, 9)], &far));
    let (longer, grown) = (with(vec![(8, 10)], &far), with(vec![(0, 9)], &far));
    let cut = with(vec![(1, 9)], &far);
    let five = (5 * PAGE, 5 * PAGE);
    let steps = [(5, 6), (6, 8), (5, 8)];
    let apart = [(0, 1), (2, 3)];
    vec![
        too_many(five, &near, &steps, &[]),
        too_many(five, &near, &steps, &[5, 6, 7]),
        kept(five, &near, &steps[2..], &[], &merged),
        kept(five, &near, &steps[1..], &[], &merged),
        kept(five, &near, &steps, &[4], &merged),
        kept(five, &near, &apart[1..], &[2], &near),
        too_many(five, &near, &apart[1..], &[3]),
        too_many(five, &near, &apart, &[0]),
        kept(five, &near, &apart, &[2, 0], &near),
        kept(five, &near, &[(0, 3), (9, 10)], &[0, 1, 2], &longer),
        too_many((0, 5 * PAGE), &near, &[], &[]),
        kept((0, 5 * PAGE), &near, &[], &[0, 1, 2, 3, 4], &near),
        kept((0, 8 * PAGE), &near, &[], &[], &grown),
        too_many((5 * PAGE, 0), &near, &[], &[]),
        too_many((5 * PAGE, PAGE), &near, &[(0, 1)], &[]),
        kept((8 * PAGE, PAGE), &near, &[], &[0], &cut),
    ]
}

/// Rows at the ends of what a list can say.
fn rows_of_the_ends() -> Vec<Row> {
    const TOP: u64 = u64::MAX;
    let (none, one) = ((0, 0), (PAGE, PAGE));
    let (two, eight) = ((2 * PAGE, 2 * PAGE), (8 * PAGE, 8 * PAGE));
    let all = [(0, TOP)];
    let most = TOP.div_ceil(PAGE);
    let but_last = [(0, most - 1), (most, TOP)];
    let high = [(TOP - 4, TOP)];
    vec![
        kept(none, &[], &[], &[], &[]),
        kept(two, &[(5, 7)], &[], &[6], &[(5, 7)]),
        kept(two, &[(0, 9)], &[], &[1, 2], &[(0, 1), (2, 9)]),
        kept(none, &[], &[(3, 3), (7, 2)], &[], &[]),
        kept(none, &[], &[(3, 3), (5, 6)], &[], &[(5, 6)]),
        kept(none, &[(4, 4), (9, 1)], &[(2, 3)], &[], &[(2, 3)]),
        kept(one, &all, &[(TOP, TOP)], &[TOP], &all),
        kept(eight, &all, &[], &[7, 8, TOP], &[(0, 7), (8, TOP)]),
        kept((0, TOP), &[], &[], &[], &[(0, most)]),
        kept((TOP, 0), &[(most, TOP)], &[], &[0], &all),
        kept(
            (TOP, TOP),
            &[(TOP - 2, TOP)],
            &[(TOP - 4, TOP - 2)],
            &[],
            &high,
        ),
        kept((TOP, TOP - 1), &all, &[], &[most - 1], &but_last),
        kept((0, 1), &[(0, 4)], &[], &[0, 0, 0], &[(1, 4)]),
    ]
}

pub fn tables() -> [Vec<Row>; 3] {
    [
        rows_of_the_scope(),
        rows_of_the_limits(),
        rows_of_the_ends(),
    ]
}

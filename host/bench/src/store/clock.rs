//! Rounds of both sides in turn, and the lines of the table.

use super::side::{Held, Pair, Side};
use std::time::{Duration, Instant};

const AT_LEAST: usize = 11;
const AT_MOST: usize = 501;
const TIME_A_ROW: Duration = Duration::from_millis(900);

/// What a line of the table says before its times.
pub struct Row<'a> {
    pub name: &'a str,
    pub runs: u64,
    pub frames: usize,
}

/// Nanoseconds of one operation, a number for each round.
#[derive(Default)]
pub struct Times {
    library: Vec<f64>,
    original: Vec<f64>,
}

/// `round` does `operations` and says how long they took, by one clock or by several.
pub fn measure<const N: usize, L: Held>(
    pair: &mut Pair<L>,
    operations: u32,
    mut round: impl FnMut(&mut dyn Side) -> [Duration; N],
) -> [Times; N] {
    pair.both(&mut round);
    let mut times: [Times; N] = std::array::from_fn(|_| Times::default());
    let each = |took: Duration| took.as_nanos() as f64 / f64::from(operations);
    let began = Instant::now();
    for done in 0..AT_MOST {
        if done >= AT_LEAST && began.elapsed() > TIME_A_ROW {
            break;
        }
        let [library, original] = pair.both(&mut round);
        for at in 0..N {
            times[at].library.push(each(library[at]));
            times[at].original.push(each(original[at]));
        }
    }
    times
}

pub fn time(work: impl FnOnce()) -> Duration {
    let began = Instant::now();
    work();
    began.elapsed()
}

fn sorted(mut times: Vec<f64>) -> Vec<f64> {
    times.sort_unstable_by(f64::total_cmp);
    times
}

pub fn head() {
    println!(
        "| ns an operation | runs | frames | library | original | ratio | of the least | rounds |"
    );
    println!("| --- | ---: | ---: | ---: | ---: | ---: | ---: | ---: |");
}

impl Times {
    pub fn print(self, row: &Row) {
        let Row { name, runs, frames } = row;
        let (library, original) = (sorted(self.library), sorted(self.original));
        let rounds = library.len();
        let (one, other) = (library[rounds / 2], original[rounds / 2]);
        let least = library[0] / original[0];
        println!(
            "| {name} | {runs} | {frames} | {one:.0} | {other:.0} | {:.2} | {least:.2} | {rounds} |",
            one / other
        );
    }
}

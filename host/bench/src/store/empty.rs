//! Calls that do nothing: what each call costs before it does anything.

use super::clock::{measure, time, Row};
use super::side::{Pair, Side};

const CALLS: u32 = 256;

pub fn report() {
    row("rollback, no update open", false, 0, |side| side.rollback());
    row("read of 0 bytes, direct", false, 0, |side| {
        side.read(0, &mut [])
    });
    row("read of 0 bytes in an update", true, 0, |side| {
        side.read(0, &mut [])
    });
    for frames in [1, 1_024] {
        row("write of 0 bytes in an update", true, frames, |side| {
            side.write(0, &[])
        });
    }
}

fn row(name: &str, updating: bool, frames: usize, call: fn(&mut dyn Side)) {
    let runs = 0;
    let mut pair = Pair::open(4, runs, frames, 0);
    if updating {
        pair.both(|side| side.begin());
    }
    let round = |side: &mut dyn Side| [time(|| (0..CALLS).for_each(|_| call(side)))];
    let [times] = measure(&mut pair, CALLS, round);
    times.print(&Row { name, runs, frames });
}

//! Lists from a seed, and the smallest list that still fails.

use super::choose::{Chooser, Seen};
use super::counts::Counts;
use super::{Act, Buffers, Call, Made, Outcome, Room, Run};
use crate::prng::{mix, Prng};
use std::fmt::Write;

/// A list of calls: the image that it starts with, the buffers first lent, and what follows.
#[derive(Clone)]
pub struct List {
    pub image: u64,
    pub lent: u64,
    pub room: Room,
    pub acts: Vec<Act>,
}

impl List {
    fn open(&self) -> Result<(Outcome, Option<Run>), String> {
        let buffers = Buffers::noise(self.lent, self.room);
        Run::open(&Made::any(self.image), buffers)
    }

    /// How it fails, if it does.
    fn fails(&self) -> Option<String> {
        let mut run = match self.open() {
            Err(text) => return Some(format!("open: {text}")),
            Ok((_, None)) => return None,
            Ok((_, Some(run))) => run,
        };
        let failed = |act: &Act| step(&mut run, act).err().map(|text| (*act, text));
        if let Some((act, text)) = self.acts.iter().find_map(failed) {
            return Some(format!("{act:?}: {text}"));
        }
        run.check().err().map(|text| format!("in the end: {text}"))
    }

    /// Leaves out what the failure does not need.
    fn shrink(mut self) -> Self {
        let mut part = self.acts.len().div_ceil(2).max(1);
        loop {
            let mut at = 0;
            while at < self.acts.len() {
                let mut shorter = self.clone();
                shorter.acts.drain(at..(at + part).min(self.acts.len()));
                if shorter.fails().is_some() {
                    self = shorter;
                } else {
                    at += part;
                }
            }
            if part == 1 {
                return self;
            }
            part = part.div_ceil(2);
        }
    }

    fn report(&self) -> String {
        let made = Made::any(self.image);
        let mut text = format!(
            "image {} ({} of {} stable pages), buffers {} {:?}:",
            self.image,
            made.count,
            made.ceiling(),
            self.lent,
            self.room
        );
        for act in &self.acts {
            write!(text, "\n  {act:?}").expect("a string takes any text");
        }
        let why = self.fails().unwrap_or_else(|| "does not fail".into());
        text + "\n  fails: " + &why
    }
}

/// Before a rollback the drafts are compared, which the original lets be seen only then.
fn step(run: &mut Run, act: &Act) -> Result<Option<Outcome>, String> {
    if matches!(act, Act::Call(Call::RollbackUpdate)) {
        run.compare_drafts()?;
    }
    run.act(act)
}

/// How a list is made.
#[derive(Clone, Copy)]
pub struct Shape {
    pub calls: u64,
    /// Whether there is room enough for every call, so that all are compared with the original.
    pub roomy: bool,
}

/// A list drawn while it runs; what was answered, or the smallest list that fails.
pub fn random(seed: u64, shape: Shape, counts: &mut Counts) -> Result<(), String> {
    let mut prng = Prng::new(mix(seed));
    let mut chooser = Chooser::new(prng.number(), shape.roomy);
    let mut list = List {
        image: prng.number(),
        lent: prng.number(),
        room: chooser.room(),
        acts: Vec::new(),
    };
    let mut run = match list.open() {
        Err(_) => return Err(list.report()),
        Ok((outcome, run)) => {
            counts.count("open", outcome.number);
            let Some(run) = run else { return Ok(()) };
            run
        }
    };
    for _ in 0..1 + prng.below(shape.calls) {
        let seen = run.seen();
        let act = chooser.next(&seen);
        list.acts.push(act);
        let Ok(outcome) = step(&mut run, &act) else {
            return Err(list.shrink().report());
        };
        match (act, outcome) {
            (Act::Call(call), Some(outcome)) => tally(&call, &outcome, &seen, counts),
            (_, Some(outcome)) => counts.count("open", outcome.number),
            _ => {}
        }
    }
    if run.check().is_err() {
        return Err(list.shrink().report());
    }
    counts.compared += run.compared;
    counts.full_caches += run.full_caches;
    counts.freed += run.freed;
    counts.closed += run.closed;
    counts.left_out += run.left_out;
    Ok(())
}

/// A call, its answer, and where the store stood before it.
fn tally(call: &Call, outcome: &Outcome, seen: &Seen, counts: &mut Counts) {
    counts.count(call.name(), outcome.number);
    let accepted = outcome.number == 0 && outcome.values[0] == 0;
    match call {
        Call::ReadAt { .. } if accepted => counts.short_reads += 1,
        Call::RefreshChecksumChunk(_) if accepted => counts.steps_left += 1,
        // no other is accepted there
        Call::WriteAt { .. } if accepted && seen.importing => counts.empty_in_import += 1,
        _ => {}
    }
}

//! The original's answers to lists of calls, kept in a file.

use crate::block::fnv1a64;
use crate::prng::{mix, Prng};
use crate::store::choose::Chooser;
use crate::store::{Act, Buffers, Call, Library, Made, Original, Outcome, Room, Run};
use std::fmt::Write;
use std::path::PathBuf;

const LISTS: u64 = 60;
const CALLS: u64 = 100;
const SEED: u64 = 0x7265_6377;
const ADDED: [u64; 2] = [33, 34];
const ROOM: Room = Room {
    frames: 64,
    entries: 120,
};
const HEADER: &str = "\
# Answers of the original to lists of calls, written by `cargo run --release --offline --bin record` in host/.
# A list begins with `open SEED`, the seed of a memory. Each line is a call with its numbers (of bytes: seed, start,
# length), then the refusal's number or 0, the four values, and digests of the bytes read, if any, and of memory in use,
# `=` where it is as after the call before. An image that is opened in the middle of an import is as after `cancel_import`.
# Direct writes and truncations in an import, but for empty writes, are left out.
";

pub fn path() -> PathBuf {
    PathBuf::from(env!("CARGO_MANIFEST_DIR")).join("../recorded/calls.txt")
}

pub fn text() -> String {
    std::fs::read_to_string(path()).expect("the recorded calls")
}

/// A memory's seed and the calls on it.
#[derive(Debug, Eq, PartialEq)]
pub struct List {
    pub image: u64,
    pub calls: Vec<Call>,
}

/// Lists for a new file, drawn where they lead the library.
pub fn drawn() -> Vec<List> {
    (0..LISTS).map(draw).collect()
}

fn draw(index: u64) -> List {
    let mut prng = Prng::new(mix(SEED ^ mix(index)));
    let (image, run) = loop {
        let image = prng.below(1 << 32);
        let opened = Run::open(&Made::any(image), Buffers::noise(1, ROOM));
        let (outcome, run) = opened.expect("the same everywhere");
        // the original has no 4, and goes on where the library refuses
        if outcome.number != 4 {
            break (image, run);
        }
    };
    let mut chooser = Chooser::new(prng.number(), true);
    let mut calls = Vec::new();
    let Some(mut run) = run else {
        return List { image, calls };
    };
    while (calls.len() as u64) < CALLS {
        let act = chooser.next(&run.seen());
        let Act::Call(call) = act else { continue };
        if matches!(call, Call::DirtyPage(_)) || run.leaves_out(&call) {
            continue;
        }
        let outcome = run.act(&act).expect("the same everywhere").expect("a call");
        if ADDED.contains(&outcome.number) {
            break;
        }
        calls.push(call);
    }
    List { image, calls }
}

/// The lists of a file, without the answers.
pub fn lists(text: &str) -> Vec<List> {
    let mut lists: Vec<List> = Vec::new();
    for line in text.lines().filter(|line| !line.starts_with('#')) {
        let (call, _) = line.split_once(" = ").expect("a call and its answer");
        match call.strip_prefix("open ") {
            Some(seed) => lists.push(List {
                image: seed.parse().expect("a seed"),
                calls: Vec::new(),
            }),
            None => {
                let call = Call::parse(call).expect("a call");
                lists.last_mut().expect("an opening").calls.push(call);
            }
        }
    }
    lists
}

/// Lines of calls and answers.
struct Lines {
    text: String,
    memory: u64,
}

impl Lines {
    fn new() -> Self {
        let text = String::from(HEADER);
        Self { text, memory: 0 }
    }

    fn add(&mut self, call: &dyn std::fmt::Display, outcome: &Outcome, memory: &[u8]) {
        let [a, b, c, d] = outcome.values;
        let number = outcome.number;
        let bytes = match outcome.bytes.len() {
            0 => "-".to_string(),
            _ => format!("{:x}", fnv1a64(&outcome.bytes)),
        };
        let before = std::mem::replace(&mut self.memory, fnv1a64(memory));
        let memory = match self.memory == before {
            true => "=".to_string(),
            false => format!("{:x}", self.memory),
        };
        writeln!(
            self.text,
            "{call} = {number} {a} {b} {c} {d} {bytes} {memory}"
        )
        .expect("a string takes any text");
    }
}

fn in_use(made: &Made) -> &[u8] {
    &made.memory[..made.count as usize * 65_536]
}

/// The file as the original has it.
pub fn of_original(lists: &[List]) -> String {
    let mut lines = Lines::new();
    for list in lists {
        let made = Made::any(list.image);
        let opening = format!("open {}", list.image);
        match Original::open(in_use(&made), made.ceiling()) {
            Err(outcome) => lines.add(&opening, &outcome, in_use(&made)),
            Ok(mut original) => {
                lines.add(&opening, &Outcome::done(), &original.memory());
                for call in &list.calls {
                    let outcome = original.call(call);
                    lines.add(call, &outcome, &original.memory());
                }
            }
        }
    }
    lines.text
}

/// The file as the library has it.
pub fn of_library(lists: &[List]) -> String {
    let mut lines = Lines::new();
    for list in lists {
        let made = Made::any(list.image);
        let opening = format!("open {}", list.image);
        let buffers = Buffers::noise(list.image, ROOM);
        let (mut library, outcome) = Library::open(made.memory.clone(), made.count, buffers);
        if outcome.number != 0 {
            lines.add(&opening, &outcome, in_use(&made));
            continue;
        }
        lines.add(&opening, &outcome, used(&library));
        for call in &list.calls {
            let outcome = library.call(call).expect("slices as they should be");
            lines.add(call, &outcome, used(&library));
        }
    }
    lines.text
}

fn used(library: &Library) -> &[u8] {
    &library.memory[..library.numbers()[0] as usize * 65_536]
}

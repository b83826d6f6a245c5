//! Slices of every kind at the lengths where 35 begins: one element less is refused with nothing changed, and the length
//! itself is not.

use conformance::prng::Prng;
use conformance::store::act::{Act, Cut};
use conformance::store::every::every_call;
use conformance::store::{Buffers, Bytes, Call, Made, Room, Run, PAGE_LEN};
use yuharopu::raw;

const STABLE_PAGE: usize = 65_536;
const ROOM: Room = Room {
    frames: 3,
    entries: 4,
};

/// A fresh image with a page written, and then in an update, in an import, or neither.
fn stores() -> Vec<Run> {
    let bytes = Bytes {
        seed: 3,
        start: 0,
        len: 20_000,
    };
    let write = |offset| Call::WriteAt { offset, bytes };
    let import = Call::BeginImport {
        total: 300,
        expected: 5,
    };
    let lists: [&[Call]; 4] = [
        &[],
        &[Call::BeginUpdate(None)],
        &[
            Call::BeginUpdate(None),
            Call::Truncate(30_000),
            write(1_000),
        ],
        &[import],
    ];
    let made = Made {
        memory: Prng::new(5).bytes(4 * STABLE_PAGE),
        count: 0,
    };
    let run = |list: &&[Call]| {
        let buffers = Buffers::noise(11, ROOM);
        let (_, run) = Run::open(&made, buffers).expect("a fresh image");
        let mut run = run.expect("a fresh image");
        for call in [&[write(0)], *list].concat() {
            let outcome = run.act(&Act::Call(call)).expect("the same everywhere");
            assert_eq!(outcome.expect("a call").number, 0);
        }
        run
    };
    lists.iter().map(run).collect()
}

/// Each slice at the last length that is too short, and at some below it.
fn cuts(run: &Run) -> Vec<Cut> {
    let needs = run.needs();
    let frames = needs.frames.0.min(needs.frames.1);
    let mut cuts: Vec<Cut> = [0, 1, 8, 335, 337, 344, 672].map(Cut::State).to_vec();
    cuts.extend((0..4).map(Cut::Answer));
    let mut below = |need: usize, cut: fn(usize) -> Cut| {
        let lens = [0, 1, need / 2, need.saturating_sub(1)];
        cuts.extend(lens.iter().filter(|len| **len < need).map(|len| cut(*len)));
    };
    below(needs.count as usize * STABLE_PAGE, Cut::Memory);
    below(needs.dirty * PAGE_LEN, Cut::Frames);
    below(needs.dirty, Cut::Numbers);
    below(8 * PAGE_LEN, Cut::Clean);
    below(2 * needs.recorded, Cut::Record);
    below(2 * (1_025 + 2 * frames), Cut::Work);
    cuts
}

#[test]
fn one_element_less() {
    let mut refused = 0;
    for mut run in stores() {
        for call in every_call() {
            for cut in cuts(&run) {
                refused += usize::from(cut.is_short(&call, &run.needs()));
                let act = Act::Short { call, cut };
                run.act(&act)
                    .unwrap_or_else(|text| panic!("{act:?}: {text}"));
            }
        }
    }
    assert!(refused > 1_000, "{refused}");
}

/// The store is lent just what it needs, and goes on as with more.
#[test]
fn no_element_more_than_needed() {
    for room in [(0, 0), (1, 1), (3, 4)] {
        let room = Room {
            frames: room.0,
            entries: room.1,
        };
        for mut run in stores() {
            let mut buffers = Buffers::noise(2, room);
            buffers.frames.truncate(room.frames * PAGE_LEN);
            buffers.numbers.truncate(room.frames);
            buffers.clean.truncate(8 * PAGE_LEN);
            buffers.record.truncate(2 * room.entries);
            if run.needs().updating {
                continue;
            }
            run.lend(buffers);
            for call in every_call() {
                let outcome = run.act(&Act::Call(call)).expect("the same everywhere");
                assert_ne!(outcome.expect("a call").number, 35, "{call:?}");
            }
        }
    }
}

#[test]
fn an_opening() {
    let noise = Prng::new(9).bytes(3 * STABLE_PAGE + 5);
    let cases = [
        (336, 4, 3, 0),
        (335, 4, 0, 35),
        (337, 4, 0, 35),
        (0, 4, 0, 35),
        (336, 3, 0, 35),
        (336, 0, 0, 35),
        (336, 4, 4, 35),
        (336, 4, u64::MAX, 35),
        (336, 4, 1 << 48, 35),
    ];
    for (state_len, answer_len, count, number) in cases {
        let mut memory = noise.clone();
        let (mut state, mut answer) = (vec![6; state_len], vec![6; answer_len]);
        let answered = raw::open(&mut state, &mut memory, count, &mut answer);
        assert!(memory == noise);
        if number == 35 {
            assert_eq!(answered, 35);
            assert_eq!((state, answer), (vec![6; state_len], vec![6; answer_len]));
        } else {
            assert_eq!((answered, answer), (1, vec![0; 4]));
            let mut none = vec![0; 336];
            none[0] = 3;
            assert_eq!(state, none);
        }
    }
}

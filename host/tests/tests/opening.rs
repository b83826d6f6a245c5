//! Openings of images in an import: "An import no longer outlives the opening of the image." (02, W-202)

use conformance::block::{
    self, Block, BASE, CHECKSUM, FIELDS, FLAGS, IMPORT, IMPORTING, REFRESH, SCHEMA, SIZE,
    STABLE_PAGE, SUM, TX,
};
use conformance::prng::Prng;
use conformance::store::{Act, Buffers, Bytes, Call, Made, Outcome, Room, Run};
use yuharopu::{raw, Error, Store};

const COUNT: u64 = 3;
const ROOM: Room = Room {
    frames: 2,
    entries: 4,
};

/// A file of 100 bytes in the second of three stable pages; in the third are 40 of an import's 100 bytes.
fn half_import() -> Block {
    let mut block = Block::fresh();
    block.fields[SIZE] = 100;
    block.fields[SCHEMA] = 3;
    block.fields[TX] = 5;
    block.fields[FLAGS] = IMPORTING;
    block.fields[SUM] = 99;
    block.fields[IMPORT].copy_from_slice(&[77, 40, 100, 131_072]);
    block
}

fn with(field: usize, number: u64) -> Block {
    let mut block = half_import();
    block.fields[field] = number;
    block
}

/// The block in front of noise, one stable page of which is not in use.
fn made(block: &Block) -> Made {
    let mut memory = Prng::new(202).bytes((COUNT as usize + 1) * STABLE_PAGE);
    let bytes = block.sealed();
    let stored = block::prefix_len(block.fields[block::COUNT]);
    memory[..stored].copy_from_slice(&bytes[..stored]);
    Made {
        memory,
        count: COUNT,
    }
}

/// Opened by the library, the model and the original, which agree.
fn open(made: &Made) -> (Outcome, Option<Run>) {
    Run::open(made, Buffers::noise(7, ROOM)).unwrap_or_else(|text| panic!("{text}"))
}

fn opened(made: &Made) -> Run {
    let (outcome, run) = open(made);
    assert_eq!(outcome, Outcome::done());
    run.expect("accepted")
}

fn fields(run: &Run) -> Vec<u64> {
    run.library.numbers()[1..=FIELDS].to_vec()
}

fn call(run: &mut Run, call: Call) -> Outcome {
    let outcome = run.act(&Act::Call(call)).expect("the same everywhere");
    outcome.expect("a call")
}

/// The fields that the opening leaves, in the state and in memory, which changes nowhere else.
fn closes(block: &Block, flags: u64) {
    let made = made(block);
    let run = opened(&made);
    let mut left = made.memory.clone();
    block::put(&mut left, FLAGS, flags);
    IMPORT.for_each(|field| block::put(&mut left, field, 0));
    block::seal(&mut left[..block::BYTES]);
    assert!(run.library.memory == left, "memory after {flags}");
    let stored: Vec<u64> = (0..FIELDS).map(|field| block::get(&left, field)).collect();
    assert_eq!(fields(&run), stored);
    assert_eq!(run.library.numbers()[0], COUNT);
}

#[test]
fn mark_and_import_fields_are_cleared_and_nothing_else() {
    closes(&half_import(), 0);
    let made = made(&half_import());
    let run = opened(&made);
    let changed = |at: &usize| made.memory[*at] != run.library.memory[*at];
    let may = |at: usize| at == 40 || (56..88).contains(&at) || (152..160).contains(&at);
    assert!((0..made.memory.len()).filter(changed).all(may));
    let fields = fields(&run);
    assert_eq!(
        [TX, SCHEMA, SUM, SIZE, BASE].map(|field| fields[field]),
        [5, 3, 99, 100, 65_536]
    );
}

#[test]
fn an_update_begins_after_it() {
    let mut run = opened(&made(&half_import()));
    let bytes = Bytes {
        seed: 1,
        start: 0,
        len: 5,
    };
    let chunk = Call::ImportChunk { offset: 40, bytes };
    assert_eq!(call(&mut run, chunk).number, 11);
    assert_eq!(call(&mut run, Call::CancelImport).number, 11);
    assert_eq!(call(&mut run, Call::BeginUpdate(None)), Outcome::value(100));
}

#[test]
fn stale_mark_and_refresh_stay() {
    let mut block = with(FLAGS, 7);
    block.fields[REFRESH].copy_from_slice(&[50, 1_234, 5]);
    closes(&block, 6);
    let run = opened(&made(&block));
    assert_eq!(fields(&run)[REFRESH], [50, 1_234, 5]);
}

#[test]
fn unknown_bits_stay() {
    closes(&with(FLAGS, (1 << 63) + 9), (1 << 63) + 8);
}

/// "Images without the mark open as before": not a byte is stored.
#[test]
fn import_fields_without_the_mark_stay() {
    for flags in [0, 2, 4, 6, 1 << 63] {
        let made = made(&with(FLAGS, flags));
        let run = opened(&made);
        assert!(run.library.memory == made.memory, "flags {flags}");
        assert_eq!(fields(&run)[IMPORT], [77, 40, 100, 131_072]);
    }
}

/// "once accepted by 01's checks": by 4 too, of an import that would have been dropped.
#[test]
fn an_import_that_contradicts_itself_is_refused_by_4() {
    let [written, total, base] = [1, 2, 3].map(|field| IMPORT.start + field);
    let blocks = [
        with(written, 101),
        with(base, 65_535),
        with(base, COUNT * STABLE_PAGE as u64 - 39),
        with(total, u64::MAX - 131_071),
    ];
    for block in blocks {
        let made = made(&block);
        let (outcome, run) = open(&made);
        assert_eq!(outcome, Outcome::refused((4, [0; 2])));
        assert!(run.is_none());
    }
    closes(&with(base, COUNT * STABLE_PAGE as u64 - 40), 0);
    closes(&with(total, u64::MAX - 131_072), 0);
}

#[test]
fn a_complete_import_is_closed_and_not_finished() {
    let mut block = with(IMPORT.start + 1, 100);
    let memory = made(&block).memory;
    block.fields[IMPORT.start] = block::fnv1a64(&memory[131_072..131_172]);
    closes(&block, 0);
    let fields = fields(&opened(&made(&block)));
    assert_eq!((fields[SIZE], fields[BASE]), (100, 65_536));
}

#[test]
fn a_second_opening_stores_nothing() {
    let run = opened(&made(&half_import()));
    let again = Made {
        memory: run.library.memory.clone(),
        count: COUNT,
    };
    assert!(opened(&again).library.memory == again.memory);
    assert_eq!(opened(&again).library.state, run.library.state);
}

/// The prefix is stored; what lies behind it, older runs for instance, stays.
#[test]
fn runs_stay_and_so_does_what_lies_behind_them() {
    let mut block = with(block::COUNT, 2);
    block.runs = vec![4, 6, 9, 12];
    closes(&block, 0);
    let made = made(&block);
    let run = opened(&made);
    assert_eq!(block::runs_in(&run.library.memory), [(4, 6), (9, 12)]);
    let behind = block::prefix_len(2)..;
    assert!(run.library.memory[behind.clone()] == made.memory[behind]);
}

/// A refused opening leaves an import in memory as it is, whatever refuses it.
#[test]
fn a_refused_opening_closes_nothing() {
    let cases = [
        (block::MAGIC, 1, 1),
        (block::VERSION, 7, 2),
        (block::LAYOUT, 9, 2),
        (block::COUNT, 1_025, 3),
        (CHECKSUM, 0, 3),
        (BASE, 65_535, 4),
        (SIZE, 131_073, 4),
    ];
    for (field, number, refusal) in cases {
        let mut made = made(&half_import());
        block::put(&mut made.memory, field, number);
        if field != CHECKSUM {
            block::seal(&mut made.memory[..block::BYTES]);
        }
        let (outcome, run) = open(&made);
        assert_eq!(outcome.number, refusal, "field {field}");
        assert!(run.is_none());
    }
}

/// Runs that are not normalized, and 35: of memory that is shorter than the count, of a state and of an answer without room.
#[test]
fn an_opening_refused_by_3_or_35_closes_nothing() {
    let mut block = with(block::COUNT, 2);
    block.runs = vec![9, 12, 4, 6];
    assert_eq!(open(&made(&block)).0.number, 3);

    let memory = made(&half_import()).memory;
    let lens = [
        (336, 4, COUNT as usize * STABLE_PAGE - 1),
        (335, 4, memory.len()),
        (337, 4, memory.len()),
        (336, 3, memory.len()),
    ];
    for (state, answer, len) in lens {
        let mut lent = memory[..len].to_vec();
        let (mut state, mut answer) = (vec![7; state], vec![7; answer]);
        assert_eq!(raw::open(&mut state, &mut lent, COUNT, &mut answer), 35);
        assert!(lent == memory[..len] && state.iter().all(|byte| *byte == 7));
        assert!(answer.iter().all(|number| *number == 7));
    }
}

#[test]
fn a_list_is_left_in_the_middle_of_an_import() {
    let fresh = Made {
        memory: Prng::new(5).bytes(4 * STABLE_PAGE),
        count: 0,
    };
    let mut run = opened(&fresh);
    let bytes = |len| Bytes {
        seed: 6,
        start: 0,
        len,
    };
    let write = Call::WriteAt {
        offset: 0,
        bytes: bytes(3),
    };
    let import = Call::BeginImport {
        total: 10,
        expected: 5,
    };
    let chunk = Call::ImportChunk {
        offset: 0,
        bytes: bytes(5),
    };
    for each in [write, import, chunk] {
        assert_eq!(call(&mut run, each).number, 0);
    }
    let memory = run.library.memory.clone();
    assert_eq!(run.act(&Act::Reopen), Ok(Some(Outcome::done())));
    assert_eq!(run.closed, 1);
    assert_eq!(run.library.numbers()[0], 3);
    assert_eq!(fields(&run)[FLAGS] & IMPORTING, 0);
    assert_eq!(run.library.memory[131_072..131_077], bytes(5).make());
    assert!(run.library.memory[STABLE_PAGE..] == memory[STABLE_PAGE..]);
    assert_eq!(call(&mut run, Call::CancelImport).number, 11);
}

/// The same of the owner of the buffers.
#[test]
fn a_store_opens_without_the_import() {
    let image = made(&half_import()).memory;
    let builder = Store::builder().ceiling(4).frames(2);
    let mut store = builder
        .open(&image[..COUNT as usize * STABLE_PAGE])
        .expect("an image");
    assert_eq!(store.finish_import(), Err(Error::ImportNotStarted));
    assert_eq!(store.begin_update(None), Ok(100));
    assert_eq!(store.memory().len(), COUNT as usize * STABLE_PAGE);
}

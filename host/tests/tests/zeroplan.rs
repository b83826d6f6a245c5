//! The program zeroplan, run as a process: what it prints, byte for byte.

use conformance::commit;
use conformance::malformed;
use conformance::plan::TooMany;
use conformance::plan_case::Kind;
use conformance::plan_row;
use conformance::plan_text::{expected, read, report, spell, MOST_BYTES};
use conformance::prng::{mix, Prng};
use std::io::{ErrorKind, Write};
use std::path::PathBuf;
use std::process::{Child, ChildStdin, Command, Stdio};
use std::thread;
use std::time::Duration;

const FOLDER_VARIABLE: &str = "YUHAROPU_BIN_DIR";
const MALFORMED: &str = "result=malformed\n";
const SAMPLE: &str = "old_size=0\nnew_size=16385\nrecord=0-2\ndirty=1\n";
const SAMPLE_ANSWER: &str = "result=accepted\npages=2\nextents=1\nextent=0-1\n";
const SIZES: &str = "old_size=0\nnew_size=0\n";
const NOTHING: &str = "result=accepted\npages=0\nextents=0\n";

fn program() -> PathBuf {
    let built = || PathBuf::from(env!("CARGO_MANIFEST_DIR")).join("../../crates/zeroplan/out");
    let folder = std::env::var_os(FOLDER_VARIABLE).map_or_else(built, PathBuf::from);
    let path = folder.join("zeroplan");
    assert!(
        path.is_file(),
        "{} is missing: run `./run` first, or name its folder in {FOLDER_VARIABLE}",
        path.display()
    );
    path
}

fn start() -> Child {
    Command::new(program())
        .stdin(Stdio::piped())
        .stdout(Stdio::piped())
        .stderr(Stdio::piped())
        .spawn()
        .expect("the program starts")
}

/// What the program prints where `give` writes its standard input.
fn run(give: impl FnOnce(ChildStdin) + Send) -> String {
    let mut child = start();
    let stdin = child.stdin.take().expect("a pipe");
    let output = thread::scope(|scope| {
        scope.spawn(|| give(stdin));
        child.wait_with_output().expect("the program ends")
    });
    assert!(output.status.success(), "{}", output.status);
    assert_eq!(output.stderr, b"", "standard error");
    String::from_utf8(output.stdout).expect("text")
}

/// A program that has read enough may have ended.
fn write(stdin: &mut ChildStdin, bytes: &[u8]) {
    if let Err(error) = stdin.write_all(bytes) {
        assert_eq!(error.kind(), ErrorKind::BrokenPipe, "{error}");
    }
}

fn answer(text: &[u8]) -> String {
    run(|mut stdin| write(&mut stdin, text))
}

fn answer_in_pieces<'a>(pieces: impl Iterator<Item = &'a [u8]> + Send) -> String {
    run(|mut stdin| {
        for piece in pieces {
            write(&mut stdin, piece);
            thread::sleep(Duration::from_millis(1));
        }
    })
}

/// The text, short enough to be shown.
fn shown(text: &[u8]) -> String {
    let start = String::from_utf8_lossy(&text[..text.len().min(400)]).into_owned();
    format!("{} bytes: {start:?}", text.len())
}

fn agree(text: &[u8], wanted: &str, place: &str) {
    let printed = answer(text);
    assert!(
        printed == wanted,
        "{place}, {}: printed {}, not {}",
        shown(text),
        shown(printed.as_bytes()),
        shown(wanted.as_bytes())
    );
}

fn seeded(index: u64) -> (Prng, String) {
    let seed = mix(0x7a65_726f ^ mix(index));
    (Prng::new(seed), format!("index {index}, seed {seed:#018x}"))
}

#[test]
fn the_sample_of_the_scope() {
    agree(SAMPLE.as_bytes(), SAMPLE_ANSWER, "the sample");
    assert_eq!(expected(SAMPLE.as_bytes()), SAMPLE_ANSWER);
}

/// The program prints the plan by plain sets, or by parts where the pages may be any. Counts how many were accepted,
/// refused by 31, and too long to be read.
fn compare(kind: Kind, total: u64) -> [u64; 3] {
    let mut counts = [0; 3];
    for index in 0..total {
        let (mut prng, place) = seeded(index);
        let input = kind.input(&mut prng).tidied();
        let mut text = spell(&input).into_bytes();
        if prng.below(4) == 0 {
            text.pop();
        }
        let plan = match kind {
            Kind::Wide => input.by_parts(),
            _ => input.by_pages(),
        };
        if text.len() > MOST_BYTES {
            counts[2] += 1;
            agree(&text, MALFORMED, &place);
            continue;
        }
        assert_eq!(read(&text).as_ref(), Some(&input), "{place}");
        counts[usize::from(plan.is_err())] += 1;
        agree(&text, &report(&input, &plan), &place);
    }
    counts
}

#[test]
fn small_pages() {
    assert_eq!(compare(Kind::Small, 1_200), [1_200, 0, 0]);
}

#[test]
fn near_the_limits() {
    let [accepted, refused, _] = compare(Kind::Full, 800);
    assert!(accepted >= 200 && refused >= 100, "{accepted}, {refused}");
}

#[test]
fn many_of_each_kind() {
    let [accepted, refused, _] = compare(Kind::Crowded, 60);
    assert!(accepted >= 20 && refused >= 2, "{accepted}, {refused}");
}

#[test]
fn any_numbers() {
    assert_eq!(compare(Kind::Wide, 1_200), [1_200, 0, 0]);
}

/// As a text can say them: with no empty run and no page that is dirty twice, on which no row depends.
#[test]
fn rows_made_by_hand() {
    for (input, runs) in plan_row::tables().concat() {
        let (input, plan) = (input.tidied(), runs.ok_or(TooMany::Left));
        agree(spell(&input).as_bytes(), &report(&input, &plan), "by hand");
    }
}

const ACCEPTED: &[(&str, &str)] = &[
    ("old_size=0\nnew_size=0", NOTHING),
    (SIZES, NOTHING),
    (
        "old_size=18446744073709551615\nnew_size=0\n",
        "result=accepted\npages=0\nextents=1\nextent=0-1125899906842624\n",
    ),
    (
        "old_size=0\nnew_size=18446744073709551615\ndirty=0",
        "result=accepted\npages=1125899906842624\nextents=1\nextent=1-1125899906842624\n",
    ),
    (
        "old_size=0\nnew_size=0\nextent=7-18446744073709551615\ndirty=18446744073709551615\n",
        "result=accepted\npages=0\nextents=1\nextent=7-18446744073709551615\n",
    ),
    (
        "old_size=9\nnew_size=9\nextent=0-1\nextent=2-3\nrecord=1-2\ndirty=5\ndirty=0\n",
        "result=accepted\npages=1\nextents=1\nextent=1-3\n",
    ),
    (
        "old_size=0\nnew_size=0\nrecord=4-5\nrecord=4-5\nrecord=1-9\n",
        "result=accepted\npages=0\nextents=1\nextent=1-9\n",
    ),
];

#[test]
fn accepted_texts() {
    for (text, printed) in ACCEPTED {
        assert_eq!(expected(text.as_bytes()), *printed, "{text:?}");
        agree(text.as_bytes(), printed, "by hand");
    }
}

fn refused(text: &[u8]) {
    assert_eq!(expected(text), MALFORMED, "{}", shown(text));
    agree(text, MALFORMED, "by hand");
}

#[test]
fn malformed_texts() {
    for text in malformed::TEXTS {
        refused(text.as_bytes());
    }
    for line in malformed::LINES {
        refused(format!("{line}\n{SIZES}").as_bytes());
        refused(format!("{SIZES}{line}\n").as_bytes());
        refused(format!("{SIZES}extent=50-60\n{line}\nrecord=1-2\ndirty=9\n").as_bytes());
        refused(format!("{SIZES}record=1-2\n{line}\ndirty=7\n").as_bytes());
        if !line.is_empty() {
            refused(format!("{SIZES}dirty=9\n{line}").as_bytes());
        }
    }
    refused(b"old_size=0\nnew_size=0\ndirty=\xff\n");
    refused(b"\xff");
}

/// 1,024 of a kind are accepted, and one more is not, whatever the others.
#[test]
fn counts_of_lines() {
    let lines = |key: &str, count: u64| -> String {
        let value = |at: u64| match key {
            "dirty" => format!("{at}"),
            _ => format!("{}-{}", 2 * at, 2 * at + 1),
        };
        (0..count)
            .map(|at| format!("{key}={}\n", value(at)))
            .collect()
    };
    for count in [1_023, 1_024, 1_025, 1_026, 2_000] {
        for key in ["extent", "record", "dirty"] {
            let text = format!("{SIZES}{}", lines(key, count));
            assert_eq!(expected(text.as_bytes()) == MALFORMED, count > 1_024);
            agree(text.as_bytes(), &expected(text.as_bytes()), key);
        }
    }
    let all = ["extent", "record", "dirty"].map(|key| lines(key, 1_024));
    let text = format!("{SIZES}{}", all.concat());
    assert!(expected(text.as_bytes()).starts_with("result=accepted"));
    agree(text.as_bytes(), &expected(text.as_bytes()), "1,024 of each");
}

/// As many runs as there may be, and all numbers as long as they can be.
#[test]
fn the_longest_answer() {
    let (top, runs) = (u64::MAX, plan_row::single(u64::MAX - 2_048, 1_024));
    let input = plan_row::input((top, top), &runs, &[], &[]);
    let printed = report(&input, &Ok(runs));
    assert_eq!(printed.len(), 50_228);
    agree(spell(&input).as_bytes(), &printed, "the longest answer");
}

/// An accepted text of exactly so many bytes: long lines as far as they fit, then four that fill it up.
fn text_of(len: usize) -> Vec<u8> {
    let record = |at: u64| format!("record={}-{}\n", u64::MAX - 1_000 + at, u64::MAX);
    let dirty = |at: u64| format!("dirty={}\n", u64::MAX - at);
    let mut lines = (0..1_000).map(record).chain((0..1_000).map(dirty));
    let mut text = SIZES.to_string();
    while text.len() + 90 < len {
        text += &lines.next().expect("lines enough");
    }
    let digits = len - text.len() - 4 * "dirty=\n".len();
    for (at, digit) in ["1", "2", "3", "4"].into_iter().enumerate() {
        let more = usize::from(at < digits % 4);
        text += &format!("dirty={}\n", digit.repeat(digits / 4 + more));
    }
    assert_eq!(text.len(), len);
    text.into_bytes()
}

#[test]
fn lengths_of_texts() {
    for len in [65_533, 65_534, 65_535, 65_536] {
        let text = text_of(len);
        assert!(
            expected(&text).starts_with("result=accepted"),
            "{len} bytes"
        );
        agree(&text, &expected(&text), "long");
        agree(
            &text[..len - 1],
            &expected(&text),
            "long, without its last line feed",
        );
    }
    let mut text = text_of(65_537);
    refused(&text);
    agree(
        &text[..65_536],
        &expected(&text[..65_536]),
        "65,537 bytes but the last",
    );
    assert!(expected(&text[..65_536]).starts_with("result=accepted"));
    text.push(b'\n');
    refused(&text);
    refused(&text_of(65_540));
    refused(&SIZES.as_bytes().repeat(40_000));
    refused(&[SIZES.as_bytes(), &vec![b'\n'; 65_536]].concat());
    refused(&vec![0; 65_536]);
    refused(&vec![b'0'; 1 << 20]);
}

/// A text with a few bytes or lines changed.
fn spoiled(prng: &mut Prng, text: &[u8]) -> Vec<u8> {
    let mut text = text.to_vec();
    for _ in 0..1 + prng.below(2) {
        let at = prng.below(text.len() as u64) as usize;
        let byte = prng.pick(b"0123456789--==\n\n\r +_aedinorstwxyz\0\xff");
        match prng.below(5) {
            0 => text[at] = byte,
            1 => text.insert(at, byte),
            2 => drop(text.remove(at)),
            3 => text.swap(at, at / 2),
            _ => text = lines_moved(prng, &text),
        }
        if text.is_empty() {
            break;
        }
    }
    text
}

/// A line goes to another place, or stands there again.
fn lines_moved(prng: &mut Prng, text: &[u8]) -> Vec<u8> {
    let mut lines: Vec<&[u8]> = text.split_inclusive(|byte| *byte == b'\n').collect();
    let from = prng.below(lines.len() as u64) as usize;
    let to = prng.below(lines.len() as u64) as usize;
    let line = lines[from];
    if prng.below(2) == 0 {
        lines.remove(from);
    }
    lines.insert(to.min(lines.len()), line);
    lines.concat()
}

#[test]
fn spoiled_texts() {
    let mut malformed = 0;
    let total = 2_500;
    for index in 0..total {
        let (mut prng, place) = seeded(index);
        let input = Kind::Small.input(&mut prng).tidied();
        let text = spoiled(&mut prng, spell(&input).as_bytes());
        let printed = expected(&text);
        malformed += u64::from(printed == MALFORMED);
        agree(&text, &printed, &place);
    }
    let accepted = total - malformed;
    assert!(
        malformed >= 1_000 && accepted >= 100,
        "{malformed}, {accepted}"
    );
}

#[test]
fn input_from_a_file_or_nowhere() {
    let path = PathBuf::from(env!("CARGO_TARGET_TMPDIR")).join("zeroplan.txt");
    std::fs::write(&path, SAMPLE).expect("a file");
    let file = std::fs::File::open(&path).expect("the file");
    let printed = |stdin: Stdio| {
        let output = Command::new(program()).stdin(stdin).output();
        output.expect("the program runs").stdout
    };
    assert_eq!(printed(Stdio::from(file)), SAMPLE_ANSWER.as_bytes());
    assert_eq!(printed(Stdio::null()), MALFORMED.as_bytes());
}

#[test]
fn input_in_pieces() {
    for cut in 0..=SAMPLE.len() {
        let (first, second) = SAMPLE.as_bytes().split_at(cut);
        let printed = answer_in_pieces([first, second].into_iter());
        assert_eq!(printed, SAMPLE_ANSWER, "cut at {cut}");
    }
    assert_eq!(answer_in_pieces(SAMPLE.as_bytes().chunks(1)), SAMPLE_ANSWER);
    assert_eq!(answer_in_pieces(b"old_size=".chunks(2)), MALFORMED);
    assert_eq!(answer_in_pieces([&b""[..]; 3].into_iter()), MALFORMED);
    for (len, piece) in [
        (20_000, 300),
        (65_536, 4_096),
        (65_536, 65_535),
        (65_537, 65_536),
        (65_537, 1_000),
    ] {
        let text = text_of(len);
        let printed = answer_in_pieces(text.chunks(piece));
        assert!(printed == expected(&text), "{len} bytes, {piece} at a time");
    }
}

/// The record and the dirty pages of an update of the original, and what its commit leaves.
#[test]
fn commits_of_the_original() {
    if !oracle::AVAILABLE {
        conformance::say(
            "the original's files are not at hand: zeroplan is not compared with its commits",
        );
        return;
    }
    let mut refusals = 0;
    for index in 0..800 {
        let (mut prng, place) = seeded(index);
        let make = prng.pick(&[commit::any, commit::any, commit::scattered]);
        let (input, committed) = make(&mut prng).committed();
        let plan = committed.ok_or(TooMany::Left);
        refusals += u64::from(plan.is_err());
        let text = spell(&input).into_bytes();
        assert_eq!(read(&text).as_ref(), Some(&input), "{place}");
        agree(&text, &report(&input, &plan), &place);
    }
    assert!(refusals >= 40, "{refusals} refusals are too few");
}

//! The built program `pieces`, whose name PIECES_PROGRAM is: what it prints of a literal, a behaviour and a note,
//! beside the Rust original's `split`, and refusals beside a second judge.

use crate::every;
use crate::places::{Given, Place};
use crate::random::Random;
use crate::refusals::{BAD_SCRIPT, ILL_FORMED, TOO_LONG};
use crate::samples;
use crate::split::BEHAVIORS;
use crate::tally::{hex, Report, Tally};
use crate::texts::{self, KINDS};
use std::fs::File;
use std::io::Write;
use std::process::{Command, Output, Stdio};
use std::str::from_utf8;
use std::thread::sleep;
use std::time::Duration;
use tokenizers::pattern::Pattern;
use tokenizers::NormalizedString;

/// The most bytes of the literal and of the note.
pub const LONGEST: usize = 8_192;

/// How many bytes the program reads at once.
pub const READ: usize = 1 << 16;

pub fn compare(report: &mut Report) {
    report.call("the program pieces", "NormalizedString::split and a second judge", |tally| {
        worked_notes(tally);
        every_short_note(tally);
        every_short_input(tally);
        other_shapes(tally);
        two_faults(tally);
        around_the_limit(tally);
        long_inputs(tally);
        any_notes(tally);
        inputs_in_parts(tally);
        an_output_that_is_full(tally);
    });
}

/// An empty literal is nowhere (docs/RULES.md); the original's place for it ends at the number of characters.
fn places(literal: &str, note: &str) -> Vec<Place> {
    if literal.is_empty() {
        vec![((0, note.len()), false)]
    } else {
        literal.find_matches(note).expect("a literal is a regular expression")
    }
}

pub fn expected(input: &[u8]) -> Vec<u8> {
    let refused = |number: u32| format!("refused {number}\n").into_bytes();
    let lines: Vec<&[u8]> = input.split(|&byte| byte == b'\n').collect();
    let [literal, [digit @ b'1'..=b'5'], note, []] = lines[..] else {
        return refused(BAD_SCRIPT);
    };
    if literal.len().max(note.len()) > LONGEST {
        return refused(TOO_LONG);
    }
    let (Ok(literal), Ok(note)) = (from_utf8(literal), from_utf8(note)) else {
        return refused(ILL_FORMED);
    };
    let behavior = BEHAVIORS[usize::from(digit - b'1')];
    let pieces = NormalizedString::from(note).split(Given(places(literal, note)), behavior);
    let pieces = pieces.expect("the places are given");
    let line = |piece: &NormalizedString| {
        let (start, end) = piece.offsets_original();
        format!("{start} {end} {}\n", piece.get())
    };
    let lines: String = pieces.iter().map(line).collect();
    format!("pieces {}\n{lines}", pieces.len()).into_bytes()
}

fn start(output: Stdio) -> std::process::Child {
    let program = std::env::var("PIECES_PROGRAM").expect("PIECES_PROGRAM is not set: run with compare/run");
    let mut command = Command::new(&program);
    command.stdin(Stdio::piped()).stdout(output).stderr(Stdio::piped());
    command.spawn().unwrap_or_else(|error| panic!("{program}: {error}"))
}

/// The program reads the whole input before it prints. Between two parts there is a pause, and each is read by itself.
fn run(parts: &[&[u8]], output: Stdio) -> Output {
    let mut started = start(output);
    let mut stdin = started.stdin.take().expect("a piped input");
    for (i, part) in parts.iter().enumerate() {
        if i > 0 {
            sleep(Duration::from_millis(5));
        }
        let _ = stdin.write_all(part);
    }
    drop(stdin);
    started.wait_with_output().expect("a program that ends")
}

fn pieces(tally: &mut Tally, input: &[u8]) {
    pieces_of(tally, &[input]);
}

fn pieces_of(tally: &mut Tally, parts: &[&[u8]]) {
    let input = &parts.concat();
    let wanted = expected(input);
    let printed = run(parts, Stdio::piped());
    let answer = match &wanted[..] {
        b"refused 1\n" => "1 IllFormed",
        b"refused 2\n" => "2 TooLong",
        b"refused 6\n" => "6 BadScript",
        _ => "accepted",
    };
    // The script reads its status there.
    let last: &[u8] = if answer == "accepted" { b"answered\n" } else { b"refused\n" };
    tally.case(answer, printed.stdout != wanted || printed.stderr != last, || {
        let said = String::from_utf8_lossy(&printed.stderr).into_owned();
        let [input, printed, wanted] = [input, &printed.stdout, &wanted].map(|bytes| hex(bytes));
        format!("prints {printed}, says {said:?}, wanted {wanted}, on {input}, in {} parts", parts.len())
    });
}

pub fn input(literal: &[u8], digit: u8, note: &[u8]) -> Vec<u8> {
    [literal, b"\n", &[digit], b"\n", note, b"\n"].concat()
}

/// The lines are written down here, and both sides print them.
fn worked_notes(tally: &mut Tally) {
    tally.family("worked notes");
    let worked: [(&str, u8, &str, &str); 6] = [
        ("-", b'4', "the-final--countdown", "pieces 4\n0 3 the\n3 9 -final\n9 10 -\n10 20 -countdown\n"),
        ("-", b'1', "the-final--countdown", "pieces 3\n0 3 the\n4 9 final\n11 20 countdown\n"),
        ("-", b'3', "-a", "pieces 2\n0 1 -\n1 2 a\n"),
        ("-", b'1', "", "pieces 1\n0 0 \n"),
        ("", b'5', "aé", "pieces 1\n0 3 aé\n"),
        ("a", b'1', "a", "pieces 0\n"),
    ];
    for (literal, digit, note, printed) in worked {
        let input = input(literal.as_bytes(), digit, note.as_bytes());
        pieces(tally, &input);
        let theirs = expected(&input);
        tally.case("accepted", theirs != printed.as_bytes(), || format!("wanted {printed:?}, theirs {}", hex(&theirs)));
    }
}

fn every_short_note(tally: &mut Tally) {
    tally.family("every note of up to 3 characters out of a, b and é, every literal of up to 1, every behaviour");
    for note in every::strings(3) {
        for literal in every::strings(1) {
            for digit in b'1'..=b'5' {
                pieces(tally, &input(literal.as_bytes(), digit, note.as_bytes()));
            }
        }
    }
}

fn every_short_input(tally: &mut Tally) {
    tally.family("every input of up to 4 of 5 bytes, and each of up to 3 with LF, 1 and LF after the first");
    for bytes in every::texts(b"a1\n\xC3\xA9", 4) {
        pieces(tally, &bytes);
    }
    for bytes in every::texts(b"a1\n\xC3\xA9", 3) {
        let (first, rest) = bytes.split_at(bytes.len().min(1));
        pieces(tally, &[first, b"\n1\n", rest, b"\n"].concat());
    }
}

fn other_shapes(tally: &mut Tally) {
    tally.family("other shapes: no LF at the end, more lines, other behaviours, CR and NUL, bytes that are no UTF-8");
    let inputs: [&[u8]; 24] = [
        b"",
        b"\n",
        b"\n\n",
        b"\n\n\n",
        b"\n1\n\n",
        b"\n1\n\n\n",
        b"-\n1\na-b",
        b"-\n1\na-b\nc",
        b"-\n1\na-b\nc\n",
        b"-\n0\na-b\n",
        b"-\n6\na-b\n",
        b"-\n11\na-b\n",
        b"-\n\na-b\n",
        b"-\n 1\na-b\n",
        b"-\n1 \na-b\n",
        b"-\r\n1\r\na-b\r\n",
        b"-\r\n1\na-\r-b\r\n",
        b"\r\n2\na\r\rb\n",
        b"\0\n2\na\0b\0\n",
        b"-\n\xC3\na-b\n",
        b"\xFF\n1\na\n",
        b"-\n1\na\xFF\n",
        b"-\n1\na\xC3\n",
        b"\xEF\xBB\xBF-\n1\na-b\n",
    ];
    for input in inputs {
        pieces(tally, input);
    }
    for digit in 0..=255 {
        pieces(tally, &input(b"-", digit, b"a-b"));
    }
}

fn two_faults(tally: &mut Tally) {
    tally.family("every two faults at once: shape, length of either line, UTF-8 of either line");
    let long = vec![b'a'; LONGEST + 1];
    let torn = [&long[..], b"\xFF"].concat();
    for literal in [&b"-"[..], b"\xFF", &long, &torn] {
        for note in [&b"a-b"[..], b"a\xC3", &long, &torn] {
            for digit in [b'1', b'0'] {
                let whole = input(literal, digit, note);
                pieces(tally, &whole);
                pieces(tally, &whole[..whole.len() - 1]);
                pieces(tally, &[&whole[..], b"x"].concat());
            }
        }
    }
}

fn around_the_limit(tally: &mut Tally) {
    tally.family("literals and notes of 8190 to 8195 bytes, cut at many places and at few");
    for len in LONGEST - 2..=LONGEST + 3 {
        for unit in ["a", "é", "漢", "😀", "a-"] {
            let text = texts::repeated(unit, len);
            for literal in ["", "-", "a", "é", "x"] {
                pieces(tally, &input(literal.as_bytes(), b'2', text.as_bytes()));
            }
            pieces(tally, &input(text.as_bytes(), b'2', b"a-b"));
            pieces(tally, &input(text.as_bytes(), b'5', text.as_bytes()));
        }
    }
    for digit in b'1'..=b'5' {
        pieces(tally, &input(b"-", digit, "-".repeat(LONGEST).as_bytes()));
        pieces(tally, &input(b"-", digit, "a-".repeat(LONGEST / 2).as_bytes()));
    }
}

fn long_inputs(tally: &mut Tally) {
    tally.family("inputs of up to 1000000 bytes: one line, many lines, a shape that breaks at the last byte");
    for len in [16_384, 16_388, 16_389, READ - 1, READ, READ + 1, 2 * READ, 1_000_000] {
        let long = vec![b'a'; len];
        for whole in [
            long.clone(),
            vec![b'\n'; len],
            input(&long, b'1', b"a"),
            input(b"a", b'1', &long),
            input(&long, b'1', &long),
            input(&long, b'9', &long),
            [&input(b"a", b'1', &long)[..], b"\n"].concat(),
            [&input(b"a", b'1', b"a")[..], &long].concat(),
            [&long[..], b"\n1\n", &long].concat(),
            [b"a\n1\n\xFF", &long[..], b"\n"].concat(),
        ] {
            pieces(tally, &whole);
        }
    }
}

fn any_notes(tally: &mut Tally) {
    tally.family("any note to 8192 bytes, literals out of it, every behaviour");
    let mut random = Random::new(110);
    for turn in 0..600 {
        let (text, literal) = samples::text_and_literal(1 + turn, &mut random);
        let (text, literal) = (text.replace('\n', ""), literal.replace('\n', ""));
        pieces(tally, &input(literal.as_bytes(), b'1' + (turn % 5) as u8, text.as_bytes()));
        if turn % 10 == 0 {
            let len = random.below(LONGEST + 1);
            let text = texts::text(*random.choose(&KINDS), len, &mut random).replace('\n', " ");
            pieces(tally, &input(b" ", b'1' + (turn / 10 % 5) as u8, text.as_bytes()));
        }
    }
}

fn inputs_in_parts(tally: &mut Tally) {
    tally.family("inputs that come in two or three parts, with pauses, cut anywhere");
    let short = input(b"-", b'4', "the-final--countdown".as_bytes());
    for at in 0..=short.len() {
        let (one, other) = short.split_at(at);
        pieces_of(tally, &[one, other]);
    }
    let long = input(b"-", b'2', "a-".repeat(LONGEST / 2).as_bytes());
    let longer = [&long[..], b"x"].concat();
    for whole in [&long[..], &longer, &long[..long.len() - 1]] {
        for at in [1, 5, 4_096, 8_191, whole.len() - 1] {
            let (one, other) = whole.split_at(at);
            pieces_of(tally, &[one, other]);
            pieces_of(tally, &[one, other, &[b'y'; 70_000]]);
        }
    }
}

/// What is written to /dev/full is lost, and the program says so.
fn an_output_that_is_full(tally: &mut Tally) {
    tally.family("an output that is full");
    for note in ["a-b".to_owned(), "a-".repeat(LONGEST / 2)] {
        let full = File::options().write(true).open("/dev/full").expect("every Linux has it");
        let printed = run(&[&input(b"-", b'2', note.as_bytes())], full.into());
        let said = String::from_utf8_lossy(&printed.stderr);
        tally.case("accepted", !said.starts_with("pieces: ") || said.contains("answered"), || {
            format!("says {said:?} of {}", hex(note.as_bytes()))
        });
    }
}

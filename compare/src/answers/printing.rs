//! The answers of the program `pieces`: what it prints, from the original's own split and slices.

use crate::list::{Answers, Replayed};
use crate::pieces::{expected, input, LONGEST, READ};
use crate::random::Random;

/// An input; what is printed of it.
pub fn printed() -> Answers {
    let mut answers = Answers::new(Replayed::Pieces);
    let notes = under_every_behavior().into_iter().chain(side_by_side()).chain(other_digits()).chain(other_shapes());
    for input in notes.chain(around_what_is_kept()).chain(any()) {
        answers.answer().text(&input).text(&expected(&input));
    }
    answers
}

/// Literals and notes: nowhere, everywhere, beside each other, overlapping.
const PAIRS: [(&str, &str); 16] = [
    ("-", "the-final--countdown"),
    ("-", ""),
    ("", "abc"),
    ("", ""),
    ("a", "a"),
    ("a", "aa"),
    ("x", "abc"),
    ("é", "aébécéé"),
    ("-", "-a"),
    ("-", "a-"),
    ("aa", "aaaaa"),
    ("\r", "a\rb\r\r"),
    ("\0", "a\0b\0\0"),
    ("-\r", "a-\rb"),
    ("1", "111"),
    ("5", "555"),
];

/// These, and others at the limit and past it, and not UTF-8.
fn under_every_behavior() -> Vec<Vec<u8>> {
    let long = |byte: u8, len: usize| vec![byte; len];
    let mut pairs: Vec<(Vec<u8>, Vec<u8>)> = PAIRS.map(|(literal, note)| (literal.into(), note.into())).to_vec();
    for past in [0, 1] {
        pairs.push((long(b'a', LONGEST + past), b"b".to_vec()));
        pairs.push((b"a".to_vec(), long(b'b', LONGEST + past)));
        pairs.push((long(b'a', LONGEST), long(b'a', LONGEST + past)));
    }
    for (literal, note) in [(&b"\xFF"[..], &b"a"[..]), (b"a", b"\xC3"), (b"\x80", b"\xED\xA0\x80")] {
        pairs.push((literal.to_vec(), note.to_vec()));
        pairs.push((literal.to_vec(), [note, &long(b'a', LONGEST)].concat()));
        pairs.push((literal.repeat(LONGEST + 1), note.to_vec()));
    }
    pairs.push((b"a".to_vec(), [long(b'a', LONGEST - 1), b"\xC3".to_vec()].concat()));
    pairs.iter().flat_map(|(literal, note)| (b'1'..=b'5').map(move |digit| input(literal, digit, note))).collect()
}

/// Matches side by side over a whole note: no piece, and one.
fn side_by_side() -> Vec<Vec<u8>> {
    let all = [("a", "a".repeat(LONGEST)), ("é", "é".repeat(LONGEST / 2)), ("a", "a".repeat(LONGEST + 1))];
    let both =
        |(literal, note): &(&str, String)| [b'1', b'5'].map(|digit| input(literal.as_bytes(), digit, note.as_bytes()));
    all.iter().flat_map(both).collect()
}

/// Second lines that are no digit from 1 to 5, beside other faults.
fn other_digits() -> Vec<Vec<u8>> {
    let lines: [&[u8]; 14] =
        [b"0", b"6", b"12", b"", b"1 ", b" 1", b"1\r", b"a", b"\0", b"\xB1", b"11", b"9", b"/", b":"];
    let with = |line: &[u8], literal: &[u8], note: &[u8]| [literal, b"\n", line, b"\n", note, b"\n"].concat();
    let beside =
        |&line: &&[u8]| [with(line, b"-", b"a-b"), with(line, &[b'-'; LONGEST + 1], b"a-b"), with(line, b"-", b"\xFF")];
    lines.iter().flat_map(beside).collect()
}

/// Fewer lines and more, and bytes after the last.
fn other_shapes() -> Vec<Vec<u8>> {
    let short: [&[u8]; 14] = [
        b"",
        b"\n",
        b"\n\n",
        b"\n\n\n",
        b"\n\n\n\n",
        b"-",
        b"-\n",
        b"-\n1\n",
        b"-\n1\na-b",
        b"-\n1\na-b\nc",
        b"-\n1\na-b\nc\n",
        b"-\n1\na-b\n\n",
        b"-\n1\n\xFF",
        b"\n1\n\n",
    ];
    let long = [[b"-\n1\n", &[b'a'; LONGEST + 1][..]].concat(), [&[0xFF; LONGEST + 1][..], b"\n7\n\n"].concat()];
    short.iter().map(|input| input.to_vec()).chain(long).collect()
}

/// Inputs about as long as what the program keeps, and about as long as what it reads at once: one line, three, more.
fn around_what_is_kept() -> Vec<Vec<u8>> {
    let ends: [(&[u8], u8, &[u8]); 9] = [
        (b"", b'a', b""),
        (b"", b'a', b"\n"),
        (b"", b'a', b"\n1\n\n"),
        (b"", b'a', b"\n1\nab\n"),
        (b"", b'a', b"\n\n\n"),
        (b"-\n1\n", b'b', b"\n"),
        (b"-\n1\n", b'b', b""),
        (b"-\n1\n", b'b', b"\nx"),
        (b"-\n1\na-b\n", b'z', b""),
    ];
    let mut inputs = vec![];
    for len in (16_380..=16_390).step_by(2).chain([16_387, 16_389, 16_400, READ - 1, READ, READ + 1]) {
        let filled =
            |(front, byte, end): (&[u8], u8, &[u8])| [front, &vec![byte; len - front.len() - end.len()], end].concat();
        inputs.extend(ends.map(filled));
        inputs.push(vec![b'\n'; len]);
    }
    inputs
}

/// Notes of a few characters, and literals out of them.
fn any() -> Vec<Vec<u8>> {
    let mut random = Random::new(111);
    let mut inputs = vec![];
    for turn in 0..200 {
        let characters = ['a', 'b', '-', '1', ' ', 'é', '漢', '😀', '\r', '\0'];
        let mut string = |most: usize| -> String {
            let len = random.below(most);
            (0..len).map(|_| *random.choose(&characters)).collect()
        };
        let (part, literal) = (string(9), string(3));
        let note = [part.clone(), literal.clone(), part, literal.clone(), literal.clone()].concat();
        inputs.push(input(literal.as_bytes(), b'1' + (turn % 5) as u8, note.as_bytes()));
    }
    inputs
}

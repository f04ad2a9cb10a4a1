//! The answers of the calls on a note or on a list of places.

use crate::blanking;
use crate::convert::{self, Call, CONVERT_OFFSETS, GET_RANGE, GET_RANGE_ORIGINAL};
use crate::every;
use crate::find;
use crate::library::{Offsets, Written};
use crate::list::{Answers, Replayed};
use crate::lists::List;
use crate::note::Note;
use crate::notes::{self, FAULTS};
use crate::places::{self, Place};
use crate::positions;
use crate::ranges::Sample;
use crate::refusals::{ILL_FORMED, NO_ROOM};
use crate::replace;
use crate::texts::LIMIT;
use std::str::from_utf8;
use tokenizers::NormalizedString;

pub fn answers() -> [Answers; 11] {
    [
        on_ranges(Replayed::ConvertOffsets, &CONVERT_OFFSETS, 4),
        on_ranges(Replayed::GetRange, &GET_RANGE, 2),
        on_ranges(Replayed::GetRangeOriginal, &GET_RANGE_ORIGINAL, 2),
        parts(),
        converted_lists(),
        char_offsets(),
        char_offset_lists(),
        found(),
        replaced(),
        alike(),
        redacted(),
    ]
}

/// The starting note.
pub fn fresh(text: &str) -> Note {
    Note::from(&NormalizedString::from(text))
}

/// `aéb` as it was, with `12` replaced, with a character of no width before it, and with letters dropped.
pub fn notes() -> [Note; 4] {
    let edits: [fn(&mut NormalizedString); 4] = [
        |_| (),
        |note| note.replace("é", "12").expect("a literal is a regular expression"),
        |note| _ = note.prepend("漢"),
        |note| _ = note.filter(|c| c != 'a'),
    ];
    edits.map(|edit| {
        let mut note = NormalizedString::from("aéb");
        edit(&mut note);
        Note::from(&note)
    })
}

/// `aéb` with each fault of a note.
pub fn faulty_notes() -> impl Iterator<Item = Note> {
    FAULTS.into_iter().map(|fault| {
        let mut note = fresh("aéb");
        fault(&mut note);
        note
    })
}

/// A note, the text that the range is of (1 for the transcript, 0 for the cleaned one), start, end; the refusal,
/// start, end.
fn on_range(answers: &mut Answers, call: &Call, note: &Note, of_original: bool, (start, end): (usize, usize)) {
    let (start, end) = (start as u32, end as u32);
    let sample = Sample::from(note.clone());
    let answer = convert::expected(&sample, call, of_original, (start, end)).0;
    answers.answer().note(note).number(of_original.into()).number(start).number(end);
    answers.number(answer.refusal).number(answer.start).number(answer.end);
}

/// Every range of the starting note with ends up to `last`, some of the others, and one of each faulty note.
fn on_ranges(replayed: Replayed, call: &Call, last: usize) -> Answers {
    let mut answers = Answers::new(replayed);
    let some = [(0, 9), (8, 9), (2, 1), (900, 900), (0, LIMIT), (u32::MAX as usize, 0), (1, u32::MAX as usize)];
    for of_original in [false, true] {
        let [fresh, others @ ..] = notes();
        for range in every::pair(last).chain(some) {
            on_range(&mut answers, call, &fresh, of_original, range);
        }
        for note in others {
            for range in [(0, 3), (1, 4)] {
                on_range(&mut answers, call, &note, of_original, range);
            }
        }
    }
    for note in faulty_notes() {
        on_range(&mut answers, call, &note, true, (0, 9));
    }
    answers
}

/// Two texts, the one that the range is of, start, end; the refusal, the part.
fn part(answers: &mut Answers, texts: [&[u8]; 2], of_original: bool, (start, end): (usize, usize)) {
    let refusal = convert::expected_part(texts[0], texts[1], of_original, start as u32, end as u32);
    let text = if of_original { texts[0] } else { texts[1] };
    let part = if refusal == 0 { &text[start..end] } else { &[] };
    answers.answer().text(texts[0]).text(texts[1]).number(of_original.into());
    answers.number(start as u32).number(end as u32).number(refusal).text(part);
}

fn parts() -> Answers {
    let mut answers = Answers::new(Replayed::Part);
    for of_original in [false, true] {
        for range in every::pair(4).chain([(0, LIMIT), (u32::MAX as usize, u32::MAX as usize)]) {
            part(&mut answers, ["aé".as_bytes(), "漢".as_bytes()], of_original, range);
        }
        for texts in [[&b"a\xFF"[..], b"a"], [b"a", b"\xC3"], [&[b'a'; LIMIT + 1], b"\xFF"]] {
            part(&mut answers, texts, of_original, (0, 1));
        }
    }
    part(&mut answers, [&[b'a'; LIMIT], b""], true, (LIMIT - 1, LIMIT));
    answers
}

/// Starts and ends of the pairs, the passed numbers, starts and ends; the refusal, the three buffers.
fn of_list(case: &mut Answers, list: &List, beside: u32, answer: impl Fn(u32, u32) -> Offsets) {
    let refusal = list.refusal(beside);
    let answers: Vec<Offsets> = match refusal {
        0 => list.pairs().map(|(from, to)| answer(from, to)).collect(),
        _ => vec![],
    };
    let [numbers, starts, ends] = list.rooms;
    case.numbers(&list.from).numbers(&list.to).passed_text(numbers).passed_numbers(starts).passed_numbers(ends);
    case.number(refusal).left_text(numbers, &answers.iter().map(|answer| answer.refusal as u8).collect::<Vec<u8>>());
    case.left_numbers(starts, &answers.iter().map(|answer| answer.start).collect::<Vec<u32>>());
    case.left_numbers(ends, &answers.iter().map(|answer| answer.end).collect::<Vec<u32>>());
}

/// Lists in order and not, empty, in just enough room, in more, and in less of each of the three; one end too many.
fn lists() -> Vec<List> {
    let pairs = [(0, 1), (1, 3), (3, 9), (2, 2), (4, 1), (900, 900), (9, 10), (0, u32::MAX)];
    let mut lists = vec![List::of(&pairs), List::of(&[])];
    for (room, len) in [(0, 1), (1, 1), (2, 1), (0, 3), (2, 255)] {
        let mut list = List::of(&pairs[..2]);
        list.rooms[room] = len;
        lists.push(list);
    }
    let mut uneven = List::of(&pairs[..2]);
    uneven.to.push(3);
    lists.push(uneven);
    lists
}

/// A note, the text that the pairs are ranges of, a list.
fn converted_lists() -> Answers {
    let mut answers = Answers::new(Replayed::ConvertAll);
    let [fresh, replaced, ..] = notes();
    let sound = [fresh, replaced].map(|note| (note, lists()));
    let faulty = faulty_notes().map(|note| (note, vec![List::of(&[(0, 1)])]));
    for (note, lists) in sound.into_iter().chain(faulty) {
        let sample = Sample::from(note);
        for (list, of_original) in lists.iter().zip([true, false].into_iter().cycle()) {
            answers.answer().note(&sample.note).number(of_original.into());
            let answer = |from, to| convert::expected(&sample, &CONVERT_OFFSETS, of_original, (from, to)).0;
            of_list(&mut answers, list, sample.refusal(), answer);
        }
    }
    answers
}

/// A text, start, end; the refusal, the two indices.
fn char_offsets() -> Answers {
    let mut answers = Answers::new(Replayed::CharOffsets);
    let mut answer = |sample: &positions::Sample, (start, end): (usize, usize)| {
        let (start, end) = (start as u32, end as u32);
        let answer = sample.expected(start, end);
        answers.answer().text(&sample.text).number(start).number(end);
        answers.number(answer.refusal).number(answer.start).number(answer.end);
    };
    for text in ["abc", "a漢b"] {
        let sample = positions::Sample::from(text.as_bytes().to_vec());
        for pair in every::pair(6).chain([(0, 10), (3, 3), (0, LIMIT), (u32::MAX as usize, 0)]) {
            answer(&sample, pair);
        }
    }
    for text in [vec![b'a'; LIMIT], vec![b'a'; LIMIT + 1], "é".repeat(LIMIT / 2).into_bytes(), vec![b'a', 0xFF]] {
        let sample = positions::Sample::from(text);
        for pair in [(0, 1), (1, LIMIT), (LIMIT - 2, LIMIT + 1)] {
            answer(&sample, pair);
        }
    }
    answers
}

/// A text, a list.
fn char_offset_lists() -> Answers {
    let mut answers = Answers::new(Replayed::CharOffsetsAll);
    for text in [&b"abc"[..], "a漢b".as_bytes(), b"a\xFF", &[b'a'; LIMIT + 1], b""] {
        let sample = positions::Sample::from(text.to_vec());
        for list in lists() {
            answers.answer().text(&sample.text);
            of_list(&mut answers, &list, sample.refusal(), |start, end| sample.expected(start, end));
        }
    }
    answers
}

/// A text, a literal, the passed list; the refusal, how many bytes are written, the list.
fn find(answers: &mut Answers, text: &[u8], literal: &[u8], rooms: impl Fn(usize) -> Vec<usize>) {
    let list = find::expected(text, literal);
    for room in rooms(list.as_ref().map_or(0, Vec::len)) {
        let (refusal, list): (u32, &[u8]) = match &list {
            Err(refusal) => (*refusal, &[]),
            Ok(list) if room < list.len() => (NO_ROOM, &[]),
            Ok(list) => (0, list),
        };
        answers.answer().text(text).text(literal).passed_text(room);
        answers.number(refusal).number(list.len() as u32).left_text(room, list);
    }
}

fn found() -> Answers {
    let mut answers = Answers::new(Replayed::FindMatches);
    for literal in ["", "a", "aa", "é", "b", "aéb", "aéba", "x"] {
        for text in ["", "aéb", "aaaaa"] {
            find(&mut answers, text.as_bytes(), literal.as_bytes(), |len| vec![len, 1000]);
        }
    }
    for room in [0, 4, 14, 15, 16] {
        find(&mut answers, b"nest 12", b"t", |_| vec![room]);
    }
    for (text, literal) in [(&b"a\xFF"[..], &b"a"[..]), (b"a", b"\xFF"), (&[b'a'; LIMIT + 1], b"\xFF")] {
        find(&mut answers, text, literal, |_| vec![0, 1000]);
    }
    // A literal across the end of 64 places, and one that nearly matches everywhere.
    for before in [61, 62, 63, 64, 65, 127, 128] {
        let text = ["b".repeat(before), "nest".into(), "b".repeat(70)].concat();
        find(&mut answers, text.as_bytes(), b"nest", |len| vec![len, 1000]);
        let text = ["n".repeat(before), "nest".into(), "n".repeat(70)].concat();
        find(&mut answers, text.as_bytes(), b"nest", |len| vec![len, 1000]);
    }
    find(&mut answers, &[b'a'; LIMIT], b"b", |len| vec![len, 1000]);
    find(&mut answers, &[b'a'; LIMIT], &[b'a'; LIMIT], |len| vec![len, 1000]);
    answers
}

/// A note, a list, a content, the passed text, starts and ends; the refusal, the size, the three buffers.
fn replace(answers: &mut Answers, note: &Note, list: &[u8], content: &[u8], rooms: fn(usize) -> [usize; 3]) {
    let result = replace::expected(note, list, content);
    let len = result.as_ref().map_or(0, |result| result.normalized.len());
    let room = rooms(len);
    answers.answer().note(note).text(list).text(content);
    published(answers, replace::in_room(&result, room.iter().all(|&room| room >= len)), room);
}

/// The passed text, starts and ends; the refusal, the size, the three buffers.
pub fn published(answers: &mut Answers, left: Result<&Note, u32>, room: [usize; 3]) {
    let Written { refusal, len } = replace::written(left);
    let nothing = Note::default();
    let left = left.unwrap_or(&nothing);
    answers.passed_text(room[0]).passed_column(room[1]).passed_column(room[2]);
    answers.number(refusal).number(len as u32).left_text(room[0], &left.normalized);
    answers.left_column(room[1], &left.starts).left_column(room[2], &left.ends);
}

fn replaced() -> Answers {
    let mut answers = Answers::new(Replayed::Replace);
    let (nest, ab) = (["nest 12", "nest 47"], "ab");
    let digits: &[Place] = &[((0, 5), false), ((5, 7), true)];
    let before: &[Place] = &[((0, 0), true), ((0, 2), false)];
    for (text, places, filler) in [(nest[0], digits, "**"), (nest[1], digits, "**"), (ab, before, "x")] {
        let note = fresh(text);
        replace(&mut answers, &note, &places::bytes(places), filler.as_bytes(), |len| [len, len + 1, len + 2]);
    }
    let note = fresh("aé");
    for places in places::every("aé", 0) {
        for filler in ["", "漢x"] {
            replace(&mut answers, &note, &places::bytes(&places), filler.as_bytes(), |len| [len + 1, len, len]);
        }
    }
    let list = places::bytes(&[((0, 1), true), ((1, 1), true), ((1, 3), false)]);
    let rooms: [fn(usize) -> [usize; 3]; 4] =
        [|len| [len - 1, len, len], |len| [len, len - 1, len], |len| [len, len, len - 1], |_| [LIMIT; 3]];
    for rooms in rooms {
        replace(&mut answers, &note, &list, b"xy", rooms);
    }
    for at in 0..list.len() {
        let mut damaged = list.clone();
        damaged[at] ^= 2;
        replace(&mut answers, &note, &damaged, b"xy", |_| [9; 3]);
    }
    for (list, filler) in [(&list[..14], &b"xy"[..]), (&list, b"\xFF"), (&[], b"xy"), (&list, &[b'x'; LIMIT - 2])] {
        replace(&mut answers, &note, list, filler, |_| [LIMIT; 3]);
    }
    for note in notes().into_iter().skip(1).chain(faulty_notes()) {
        let list = places::bytes(&[((0, note.normalized.len()), true)]);
        replace(&mut answers, &note, &list, b"x", |_| [9; 3]);
    }
    answers
}

/// Two notes, a list, a filler; the refusal, 1 where what is published of both is alike.
fn alike() -> Answers {
    let mut answers = Answers::new(Replayed::PublishedAlike);
    let notes = ["n12", "n47", "n4", "né", "m12"].map(fresh);
    let lists = [vec![((0, 1), false), ((1, 3), true)], vec![((0, 1), true), ((1, 3), false), ((3, 3), true)]];
    let mut answer = |one: &Note, other: &Note, list: &[u8], filler: &[u8]| {
        let expected = blanking::expected(one, other, list, filler);
        answers.answer().note(one).note(other).text(list).text(filler);
        answers.number(expected.refusal).number(expected.alike.into());
    };
    for list in lists.iter().map(|places| places::bytes(places)) {
        for other in &notes {
            answer(&notes[0], other, &list, b"*");
            answer(other, &notes[0], &list, b"");
        }
        answer(&notes[0], &notes[0], &list, b"\xFF");
        answer(&notes[0], &notes[0], &list[..9], b"");
    }
    let list = places::bytes(&[((0, 4), true)]);
    let fresh = fresh("aéb");
    for note in faulty_notes() {
        answer(&note, &fresh, &list, b"x");
        answer(&fresh, &note, &list, b"x");
    }
    answers
}

fn redaction(text: &[u8], literal: &[u8], content: &[u8]) -> Result<Note, u32> {
    let list = find::expected(text, literal)?;
    from_utf8(content).map_err(|_| ILL_FORMED)?;
    replace::expected(&notes::expected_from_text(text)?, &list, content)
}

/// A text, a literal, a content, the passed text and columns; the refusal, the size, the three buffers.
fn redact(answers: &mut Answers, strings: [&[u8]; 3], rooms: impl Fn([usize; 3]) -> Vec<[usize; 3]>) {
    let [text, literal, content] = strings;
    let nothing = || Note { original: vec![], normalized: vec![], starts: vec![], ends: vec![], original_shift: 0 };
    let result = redaction(text, literal, content);
    let sizes =
        result.as_ref().map_or([9; 3], |result| [result.normalized.len(), result.starts.len(), result.ends.len()]);
    for room in rooms(sizes) {
        let (refusal, result) = match &result {
            Err(refusal) => (*refusal, nothing()),
            Ok(_) if room.iter().zip(sizes).any(|(&room, size)| room < size) => (NO_ROOM, nothing()),
            Ok(result) => (0, result.clone()),
        };
        answers.answer().text(text).text(literal).text(content);
        answers.passed_text(room[0]).passed_column(room[1]).passed_column(room[2]);
        answers.number(refusal).number(result.normalized.len() as u32);
        answers.left_text(room[0], &result.normalized);
        answers.left_column(room[1], &result.starts).left_column(room[2], &result.ends);
    }
}

/// Just large enough, larger, and short by one in each in turn.
fn around(sizes: [usize; 3]) -> Vec<[usize; 3]> {
    let short = |i: usize| {
        let mut room = sizes;
        room[i] = sizes[i].saturating_sub(1);
        room
    };
    [sizes, sizes.map(|size| size + 3)].into_iter().chain((0..3).map(short)).collect()
}

fn redacted() -> Answers {
    let mut answers = Answers::new(Replayed::Redact);
    for text in ["", "nest 12", "aéb", "aaé漢aa"] {
        for literal in ["", "12", "é", "aa", "aéb"] {
            for content in ["", "*", "漢x"] {
                let strings = [text, literal, content].map(str::as_bytes);
                redact(&mut answers, strings, |sizes| vec![sizes, sizes.map(|size| size + 2)]);
            }
        }
    }
    redact(&mut answers, [&b"nest 12"[..], b"t", b"**"], around);
    redact(&mut answers, ["é漢é".as_bytes(), "é".as_bytes(), b"x"], around);
    let blocks = ["aé漢😀 nest 12 ".repeat(12), format!("{}é{}", "a".repeat(90), "b".repeat(90))];
    for (text, literal) in blocks.iter().zip(["nest 12", "é"]) {
        for content in ["", "*****", "nine bytes"] {
            redact(&mut answers, [text, literal, content].map(str::as_bytes), |sizes| {
                vec![sizes, sizes.map(|size| size + 90)]
            });
        }
    }
    for strings in [[&b"a\xFF"[..], b"a", b"x"], [b"a", b"\xC3", b"x"], [b"a", b"a", b"\xE2\x82"]] {
        redact(&mut answers, strings, |sizes| vec![sizes, [0; 3]]);
    }
    redact(&mut answers, [&[b'a'; LIMIT + 1], b"a", b"x"], |_| vec![[LIMIT + 1; 3], [0; 3]]);
    redact(&mut answers, [&[b'a'; LIMIT], b"b", b"x"], |sizes| vec![sizes]);
    redact(&mut answers, [&[b'a'; LIMIT], &[b'a'; LIMIT], b"x"], |sizes| vec![sizes]);
    redact(&mut answers, [&b"abc"[..], b"b", &[b'x'; LIMIT - 2]], |sizes| vec![sizes]);
    redact(&mut answers, [&b"abc"[..], b"b", &[b'x'; LIMIT - 1]], |_| vec![[LIMIT + 1; 3]]);
    answers
}

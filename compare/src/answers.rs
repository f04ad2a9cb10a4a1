//! The answers that crates/replay replays (`compare/run list`): what the Rust original and `core::str` answer, and,
//! where they refuse nothing, the second check. The same in every run. `list.rs` has the layout and the calls' names; a
//! new call is a name there, a function here or below `answers`, and one in crates/replay, which reads the fields in
//! the order in which they are written here.

mod calls;
mod cutting;
mod editing;
mod printing;
mod replacing;
mod slicing;

use crate::characters::{self, sequences};
use crate::every;
use crate::list::{field, Answers, Replayed};
use crate::note::{offset, Note, Offset};
use crate::notes::{self, rooms, FAULTS};
use crate::random::Random;
use crate::refusals::NO_ROOM;
use crate::samples::{self, DAMAGES, DAMAGES_AT};
use crate::texts::{self, KINDS, LIMIT, UNITS};
use std::process::ExitCode;
use std::str::from_utf8;
use tokenizers::normalizer::Range;
use tokenizers::NormalizedString;

/// From the repository's root.
const FOLDER: &str = "crates/replay/data";

pub fn write() -> ExitCode {
    let lists = [well_formed(), letter_counts(), starting_notes(), checked_notes()];
    let cut = [slicing::slices()].into_iter().chain(cutting::answers()).chain([printing::printed()]);
    let edited = editing::answers().into_iter().chain([replacing::replaced_by_edits()]);
    let all: Vec<Answers> = lists.into_iter().chain(calls::answers()).chain(cut).chain(edited).collect();
    for call in Replayed::ALL {
        assert!(all.iter().any(|answers| answers.call == *call), "{} has no answers", call.name());
    }
    write_file("calls", &Replayed::ALL.iter().flat_map(|call| field(call.name().as_bytes())).collect::<Vec<u8>>());
    for answers in all {
        write_file(answers.call.name(), &answers.file());
        println!("{answers}");
    }
    ExitCode::SUCCESS
}

fn write_file(name: &str, bytes: &[u8]) {
    let path = format!("{FOLDER}/{name}");
    std::fs::write(&path, bytes).unwrap_or_else(|error| panic!("{path}: {error}"));
}

/// The worked notes on texts: the limit, and the last character before the surrogates and the first of them.
fn worked() -> [Vec<u8>; 4] {
    [vec![b'a'; LIMIT], vec![b'a'; LIMIT + 1], vec![0xED, 0x9F, 0xBF], vec![0xED, 0xA0, 0x80]]
}

/// Texts at the limit and one past it, in characters of 2 to 4 bytes, whole and with the last byte damaged.
fn around_the_limit() -> Vec<Vec<u8>> {
    let mut around = vec![];
    for unit in ["é", "漢", "😀", "a漢é😀"] {
        for len in [LIMIT, LIMIT + 1] {
            let mut text = texts::repeated(unit, len).into_bytes();
            around.push(text.clone());
            text[len - 1] = 0xC3;
            around.push(text);
        }
    }
    around
}

/// Table 3-7, row by row: the range of each byte.
const TABLE_3_7: [&[(u8, u8)]; 9] = [
    &[(0x00, 0x7F)],
    &[(0xC2, 0xDF), (0x80, 0xBF)],
    &[(0xE0, 0xE0), (0xA0, 0xBF), (0x80, 0xBF)],
    &[(0xE1, 0xEC), (0x80, 0xBF), (0x80, 0xBF)],
    &[(0xED, 0xED), (0x80, 0x9F), (0x80, 0xBF)],
    &[(0xEE, 0xEF), (0x80, 0xBF), (0x80, 0xBF)],
    &[(0xF0, 0xF0), (0x90, 0xBF), (0x80, 0xBF), (0x80, 0xBF)],
    &[(0xF1, 0xF3), (0x80, 0xBF), (0x80, 0xBF), (0x80, 0xBF)],
    &[(0xF4, 0xF4), (0x80, 0x8F), (0x80, 0xBF), (0x80, 0xBF)],
];

/// For each byte of each row both sides of both ends of its range, with the other bytes lowest, and with them highest.
fn edges_of_rows() -> Vec<Vec<u8>> {
    let mut edges = vec![];
    for row in TABLE_3_7 {
        let lowest: Vec<u8> = row.iter().map(|&(low, _)| low).collect();
        let highest: Vec<u8> = row.iter().map(|&(_, high)| high).collect();
        for (i, &(low, high)) in row.iter().enumerate() {
            for byte in [low.wrapping_sub(1), low, high, high.wrapping_add(1)] {
                for mut text in [lowest.clone(), highest.clone()] {
                    text[i] = byte;
                    edges.push(text);
                }
            }
        }
    }
    edges
}

/// A character, or a wrong or cut one, alone and across the end of a block of 128 bytes.
fn in_blocks() -> Vec<Vec<u8>> {
    let mut texts = sequences();
    for offset in [126, 128] {
        for sequence in sequences() {
            texts.push([vec![b'a'; offset], sequence, vec![b'a'; 131]].concat());
        }
    }
    texts
}

/// A text; 1 where it is well-formed, 0 where it is not.
fn well_formed() -> Answers {
    let mut answers = Answers::new(Replayed::WellFormed);
    let bytes = (0..=255).map(|byte| vec![byte]);
    let texts = worked().into_iter().chain(around_the_limit()).chain(bytes).chain(edges_of_rows()).chain(in_blocks());
    for text in texts {
        answers.answer().text(&text).number(from_utf8(&text).is_ok().into());
    }
    answers
}

/// A text, start, end; the refusal, the count.
fn letter_count(answers: &mut Answers, text: &[u8], start: usize, end: usize) {
    let (start, end) = (start as u32, end as u32);
    let count = characters::expected_count(text, start, end);
    answers.answer().text(text).number(start).number(end).number(count.refusal).number(count.count);
}

fn letter_counts() -> Answers {
    let mut answers = Answers::new(Replayed::LetterCount);
    for text in worked().into_iter().chain(around_the_limit()) {
        for (start, end) in [(0, text.len()), (0, 0), (text.len(), text.len()), (0, text.len() + 1), (9, 3)] {
            letter_count(&mut answers, &text, start, end);
        }
    }
    let text = "é漢😀".as_bytes();
    for (start, end) in every::pair(text.len() + 1) {
        letter_count(&mut answers, text, start, end);
    }
    for far in [LIMIT, LIMIT + 1, 1 << 31, u32::MAX as usize] {
        letter_count(&mut answers, text, 0, far);
        letter_count(&mut answers, text, far, 0);
        letter_count(&mut answers, text, far, far);
    }
    for unit in UNITS {
        let text = texts::repeated(unit, 600);
        for (start, end) in [(0, 600), (64, 192), (100, 300), (127, 129), (1, 599), (12, 588)] {
            letter_count(&mut answers, text.as_bytes(), start, end);
        }
    }
    letter_counts_anywhere(&mut answers);
    answers
}

fn letter_counts_anywhere(answers: &mut Answers) {
    let mut random = Random::new(11);
    for turn in 0..12 {
        let len = 1 + random.below(30);
        let text = texts::text(KINDS[turn % KINDS.len()], len, &mut random);
        let (one, other) = (texts::any_boundary(&text, &mut random), texts::any_boundary(&text, &mut random));
        let mut bytes = text.into_bytes();
        if turn % 5 == 0 {
            bytes[random.below(len)] = random.byte();
        }
        letter_count(answers, &bytes, one.min(other), one.max(other));
    }
}

/// A text, the passed starts and ends; the refusal, the two columns.
fn starting_note(answers: &mut Answers, text: &[u8], room: (usize, usize)) {
    let (refusal, starts, ends) = match notes::expected_from_text(text) {
        Err(refusal) => (refusal, vec![], vec![]),
        Ok(_) if room.0.min(room.1) < text.len() => (NO_ROOM, vec![], vec![]),
        Ok(note) => (0, note.starts, note.ends),
    };
    answers.answer().text(text).passed_column(room.0).passed_column(room.1);
    answers.number(refusal).left_column(room.0, &starts).left_column(room.1, &ends);
}

fn starting_notes() -> Answers {
    let mut answers = Answers::new(Replayed::FromText);
    for text in worked().into_iter().chain(around_the_limit()) {
        let len = text.len();
        for room in [(len, len), (LIMIT + 1, LIMIT + 1), (len - 1, len), (len, len - 1)] {
            starting_note(&mut answers, &text, room);
        }
    }
    for text in ["", "a", "é", "漢", "😀", "aéb", "nest 12", "a漢é😀", "příliš žluťoučký kůň"] {
        for room in rooms(text.len()) {
            starting_note(&mut answers, text.as_bytes(), room);
        }
    }
    for unit in UNITS {
        for len in [127, 128, 129, 600] {
            starting_note(&mut answers, texts::repeated(unit, len).as_bytes(), (len + 3, len));
        }
    }
    for sequence in sequences() {
        let text = [b"a".to_vec(), sequence].concat();
        starting_note(&mut answers, &text, (text.len() + 1, text.len() + 1));
    }
    answers
}

/// A note: transcript, cleaned text, starts, ends, shift; the refusal.
fn checked_note(answers: &mut Answers, note: &Note) {
    answers.answer().note(note).number(note.refusal());
}

fn checked_notes() -> Answers {
    let mut answers = Answers::new(Replayed::CheckNote);
    for note in edited_notes() {
        checked_note(&mut answers, &note);
    }
    let mut random = Random::new(12);
    for _ in 0..10 {
        let len = random.below(12);
        checked_note(&mut answers, &Note::from(&samples::edited(len, &mut random)));
    }
    notes_at_the_limit(&mut answers);
    damaged_notes(&mut answers);
    notes_with_two_faults(&mut answers);
    answers
}

/// Starting notes, and each edit of the original on each of them.
fn edited_notes() -> Vec<Note> {
    let edits: [fn(&mut NormalizedString); 9] = [
        |_| (),
        |note| note.replace("12", "**").expect("a literal is a regular expression"),
        |note| _ = note.filter(|c| c != 'é' && c != 't'),
        |note| _ = note.prepend("x漢"),
        |note| _ = note.append("é!"),
        |note| _ = note.map(|c| if c.is_ascii() { '😀' } else { 'x' }),
        |note| _ = note.uppercase(),
        |note| _ = note.clear(),
        |note| *note = note.slice(Range::Normalized(1..3)).expect("both ends are boundaries"),
    ];
    let mut notes = vec![];
    for text in ["nest 12", "aéb", "aé漢😀12"] {
        for edit in edits {
            let mut note = NormalizedString::from(text);
            edit(&mut note);
            notes.push(Note::from(&note));
        }
    }
    notes
}

/// Starting notes at the limit and one past it, whole and with each damage that needs no byte.
fn notes_at_the_limit(answers: &mut Answers) {
    let column: Vec<Offset> = (0..=LIMIT).map(offset).collect();
    let next: Vec<Offset> = (1..=LIMIT).chain([LIMIT]).map(offset).collect();
    for (original, normalized) in every::pair(1) {
        let (original, normalized) = (LIMIT + original, LIMIT + normalized);
        let note = Note {
            original: vec![b'o'; original],
            normalized: vec![b'n'; normalized],
            starts: column[..normalized].to_vec(),
            ends: next[..normalized].to_vec(),
            original_shift: 0,
        };
        checked_note(answers, &note);
        for (_, damage) in DAMAGES {
            let mut damaged = note.clone();
            damage(&mut damaged);
            // A column of the list has at most one number more than the limit.
            if damaged.starts.len().max(damaged.ends.len()).max(damaged.original.len()) <= LIMIT + 1 {
                checked_note(answers, &damaged);
            }
        }
    }
}

/// A starting note and one that the original edited, with each damage.
fn damaged_notes(answers: &mut Answers) {
    let fresh = NormalizedString::from("aéb");
    let mut replaced = NormalizedString::from("ž12");
    replaced.replace("12", "漢").expect("a literal is a regular expression");
    for (note, offsets) in [(fresh, 0..4), (replaced, 2..4)] {
        let note = Note::from(&note);
        for (_, damage) in DAMAGES {
            let mut damaged = note.clone();
            damage(&mut damaged);
            checked_note(answers, &damaged);
        }
        for (_, damage) in DAMAGES_AT {
            for offset in offsets.clone() {
                let mut damaged = note.clone();
                damage(&mut damaged, offset);
                checked_note(answers, &damaged);
            }
        }
    }
}

/// Every fault beside every other: the order of checks decides.
fn notes_with_two_faults(answers: &mut Answers) {
    for (i, one) in FAULTS.iter().enumerate() {
        for other in &FAULTS[i..] {
            let mut note = Note::from(&NormalizedString::from("aéb"));
            one(&mut note);
            other(&mut note);
            checked_note(answers, &note);
        }
    }
}

//! The calls on notes: the starting note beside `NormalizedString::from`, and soundness beside a second check.

use crate::every;
use crate::guarded::Guarded;
use crate::library;
use crate::note::{Note, Offset};
use crate::random::Random;
use crate::refusals::{ILL_FORMED, NO_ROOM, TOO_LONG};
use crate::samples::{self, ADDRESSES, DAMAGES, DAMAGES_AT};
use crate::tally::{self, hex, Report, Tally};
use crate::texts::{self, KINDS, LIMIT, OFFSETS, UNITS};
use std::str::from_utf8;
use tokenizers::NormalizedString;

pub fn compare(report: &mut Report) {
    report.call("zulmyren_from_text", "NormalizedString::from", |tally| {
        short_texts_in_every_room(tally);
        texts_of_every_length(tally);
        character_at_every_offset(tally);
        texts_around_the_limit(tally);
        any_texts(tally);
    });
    report.call("zulmyren_check_note", "a second check", |tally| {
        every_column(tally);
        every_size(tally);
        every_set_of_faults(tally);
        sizes_around_the_limit(tally);
        damage_at_every_offset(tally);
        damage_at_the_end(tally);
        notes_of_the_original(tally);
        any_notes(tally);
        long_notes(tally);
        nothing_anywhere(tally);
    });
}

/// The note that the Rust original makes of a text, or the refusal that docs/RULES.md gives it.
pub fn expected_from_text(text: &[u8]) -> Result<Note, u32> {
    if text.len() > LIMIT {
        return Err(TOO_LONG);
    }
    let text = from_utf8(text).map_err(|_| ILL_FORMED)?;
    Ok(Note::from(&NormalizedString::from(text)))
}

/// The starting note of `text` in buffers of each pair of sizes.
fn from_text(tally: &mut Tally, text: &[u8], rooms: impl IntoIterator<Item = (usize, usize)>) {
    let note = expected_from_text(text);
    for room in rooms {
        let (mut starts, mut ends) = (Guarded::new(room.0), Guarded::new(room.1));
        let ours = library::from_text(text, starts.part(), ends.part());
        let (theirs, their_starts, their_ends): (u32, &[Offset], &[Offset]) = match &note {
            Err(refusal) => (*refusal, &[], &[]),
            Ok(_) if room.0.min(room.1) < text.len() => (NO_ROOM, &[], &[]),
            Ok(note) => (0, &note.starts, &note.ends),
        };
        let starts_hold = starts.holds(their_starts);
        let ends_hold = ends.holds(their_ends);
        let differs = ours != theirs || !starts_hold || !ends_hold;
        tally.case(tally::refusal(ours), differs, || {
            let equal = |holds| if holds { "equal" } else { "not equal" };
            let (starts, ends) = (equal(starts_hold), equal(ends_hold));
            let text = hex(text);
            format!("ours {ours}, theirs {theirs}, starts {starts}, ends {ends}, in rooms {room:?}, on {text}")
        });
    }
}

/// Buffers that are just large enough, larger, and short in one column, the other or both.
pub fn rooms(len: usize) -> Vec<(usize, usize)> {
    let short = len.saturating_sub(1);
    vec![
        (len, len),
        (len + 7, len),
        (len, len + 100),
        (short, len),
        (len, short),
        (short, short),
        (0, len),
        (len, 0),
        (0, 0),
    ]
}

fn short_texts_in_every_room(tally: &mut Tally) {
    tally.family("every text of up to 4 of 8 bytes, in every room");
    for len in 0..=4 {
        for text in every::list(b"a\x00\x80\xA9\xC3\xE6\xF0\xFF", len) {
            from_text(tally, &text, every::pair(len + 2));
        }
    }
}

fn texts_of_every_length(tally: &mut Tally) {
    tally.family("texts of every length to 300, whole and truncated");
    let mut random = Random::new(3);
    for len in 0..=300 {
        for kind in KINDS {
            let text = texts::text(kind, len, &mut random);
            from_text(tally, text.as_bytes(), rooms(len));
            let longer = texts::text(kind, len + 4, &mut random);
            from_text(tally, &longer.as_bytes()[..len], rooms(len));
        }
    }
}

fn character_at_every_offset(tally: &mut Tally) {
    tally.family("a character of 2 to 4 bytes at every offset to 200");
    for character in ["é", "漢", "😀"] {
        for offset in 0..=OFFSETS {
            let text = texts::repeated("a", offset) + character + &texts::repeated("a", 70);
            from_text(tally, text.as_bytes(), rooms(text.len()));
        }
    }
}

fn texts_around_the_limit(tally: &mut Tally) {
    tally.family("texts about the limit and of 131072 bytes, whole and with the last byte damaged");
    let mut random = Random::new(4);
    for len in (LIMIT - 2..=LIMIT + 3).chain([131_072]) {
        for kind in KINDS {
            let mut text = texts::text(kind, len, &mut random).into_bytes();
            from_text(tally, &text, rooms(len));
            text[len - 1] = 0xC3;
            from_text(tally, &text, rooms(len));
        }
    }
}

fn any_texts(tally: &mut Tally) {
    tally.family("texts of any length, whole and with one byte damaged");
    let mut random = Random::new(5);
    for _ in 0..400 {
        let len = 1 + random.below(LIMIT);
        let mut text = texts::text(*random.choose(&KINDS), len, &mut random).into_bytes();
        let room = *random.choose(&rooms(len));
        from_text(tally, &text, [(len, len), room]);
        text[random.below(len)] = random.byte();
        from_text(tally, &text, [(len, len), room]);
    }
}

fn check_note(tally: &mut Tally, note: &Note, made: impl FnOnce() -> String) {
    let ours = library::check_note(note);
    let second = note.refusal();
    tally.case(tally::refusal(ours), ours != second, || {
        format!("ours {ours}, second check {second}, {}: {note}", made())
    });
}

/// The note, and the note with each damage that needs no byte.
fn check_and_damage(tally: &mut Tally, note: &Note) {
    check_note(tally, note, || "whole".into());
    for (name, damaged) in samples::damaged(note) {
        check_note(tally, &damaged, || name.into());
    }
}

fn check_damage_at(tally: &mut Tally, note: &Note, offset: usize) {
    for (name, damaged) in samples::damaged_at(note, offset) {
        check_note(tally, &damaged, || format!("{name} at {offset}"));
    }
}

fn every_column(tally: &mut Tally) {
    tally.family("texts of up to 3 bytes with every two columns of 0 to 4 and the largest number");
    let texts = ["", "a", "ab", "abc", "é", "éa", "aé", "漢"];
    for original in texts {
        for normalized in texts {
            let len = normalized.len();
            for columns in every::list(&[0, 1, 2, 3, 4, Offset::MAX], 2 * len) {
                let (starts, ends) = columns.split_at(len);
                let note = Note {
                    original: original.into(),
                    normalized: normalized.into(),
                    starts: starts.into(),
                    ends: ends.into(),
                    original_shift: 0,
                };
                check_note(tally, &note, || "whole".into());
            }
        }
    }
}

fn every_size(tally: &mut Tally) {
    tally.family("texts of up to 2 bytes, well-formed or not, columns of every length to 3, shifts to the limit");
    let texts = every::texts(b"a\xC3\xA9\xFF", 2);
    for original in &texts {
        for normalized in &texts {
            for (starts, ends) in every::pair(3) {
                let note = Note {
                    original: original.clone(),
                    normalized: normalized.clone(),
                    starts: vec![0; starts],
                    ends: vec![0; ends],
                    original_shift: 0,
                };
                check_and_damage(tally, &note);
            }
        }
    }
}

/// A fault of each rank and kind; the order of docs/RULES.md decides among those of one note.
pub const FAULTS: [fn(&mut Note); 9] = [
    |note| note.original.resize(LIMIT + 1, b'o'),
    |note| note.normalized.resize(LIMIT + 1, b'n'),
    |note| note.original_shift = u32::MAX,
    |note| note.starts.push(4),
    |note| note.ends.truncate(1),
    |note| note.original[0] = 0xFF,
    |note| note.normalized[0] = 0xFF,
    |note| note.starts[0] = 3,
    |note| note.ends[0] = 2,
];

/// A note with a set of these faults, a bit for each.
fn faulty(mut note: Note, set: u32) -> Note {
    for (_, fault) in FAULTS.iter().enumerate().filter(|(i, _)| set >> i & 1 == 1) {
        fault(&mut note);
    }
    note
}

/// A note with every set of these faults.
pub fn every_faulty(note: Note) -> impl Iterator<Item = (u32, Note)> {
    (0..1_u32 << FAULTS.len()).map(move |set| (set, faulty(note.clone(), set)))
}

fn sound() -> Note {
    Note::from(&NormalizedString::from("aéb"))
}

/// `aéb` with a set of these faults.
pub fn with(set: u32) -> Note {
    faulty(sound(), set)
}

/// `aéb` with every set of these faults.
pub fn with_faults() -> impl Iterator<Item = (u32, Note)> {
    every_faulty(sound())
}

fn every_set_of_faults(tally: &mut Tally) {
    tally.family("every set of faults out of nine");
    for (set, note) in with_faults() {
        check_note(tally, &note, || format!("faults {set:09b}"));
    }
}

fn sizes_around_the_limit(tally: &mut Tally) {
    tally.family("texts and columns about the limit, shifts to the limit");
    const LAST: Offset = LIMIT as Offset - 1;
    for (original, normalized) in every::pair(3) {
        let (original, normalized) = (LIMIT - 1 + original, LIMIT - 1 + normalized);
        for alignment in [(0, 0), (9, LAST), (LAST, LAST), (9, LAST + 1)] {
            check_and_damage(tally, &samples::uniform(original, normalized, alignment));
        }
    }
}

/// Sound notes over a few blocks, with narrow, wide and empty alignments.
fn block_notes() -> Vec<Note> {
    let mut random = Random::new(6);
    let mut notes = vec![];
    for original in UNITS {
        let text = texts::repeated(original, OFFSETS);
        notes.push(NormalizedString::from(text.as_str()));
        for alignment in [(0, 0), (0, OFFSETS), (OFFSETS, OFFSETS)] {
            notes.push(NormalizedString::of_fields(text.clone(), text.clone(), vec![alignment; OFFSETS], 0));
        }
        for normalized in UNITS {
            // A longer original leaves gaps between alignments, in which a change by 1 breaks one rule alone.
            for len in [OFFSETS, 20 * OFFSETS] {
                let (original, normalized) = (texts::repeated(original, len), texts::repeated(normalized, OFFSETS));
                notes.push(samples::scattered(original, normalized, &mut random));
            }
        }
    }
    notes.iter().map(Note::from).collect()
}

fn damage_at_every_offset(tally: &mut Tally) {
    tally.family("notes of 200 bytes, damaged at every offset");
    for note in block_notes() {
        check_and_damage(tally, &note);
        for offset in 0..note.normalized.len() {
            check_damage_at(tally, &note, offset);
        }
    }
}

fn damage_at_the_end(tally: &mut Tally) {
    tally.family("starting notes of every length to 300, damaged at the last byte");
    for unit in UNITS {
        for len in 1..=300 {
            let note = Note::from(&NormalizedString::from(texts::repeated(unit, len)));
            check_note(tally, &note, || "whole".into());
            check_damage_at(tally, &note, len - 1);
        }
    }
}

/// Every edited note is sound, and only sizes may pass the limit. This tries the second check itself.
fn notes_of_the_original(tally: &mut Tally) {
    tally.family("notes that the Rust original edited are sound");
    let mut random = Random::new(7);
    for turn in 0..10_000 {
        let len = random.below(if turn % 100 == 0 { LIMIT } else { 300 });
        let note = Note::from(&samples::edited(len, &mut random));
        let ours = library::check_note(&note);
        let second = note.refusal();
        let differs = ours != second || ![0, TOO_LONG].contains(&second);
        tally.case(tally::refusal(ours), differs, || format!("ours {ours}, second check {second}: {note}"));
    }
}

fn any_notes(tally: &mut Tally) {
    tally.family("notes of any make to 300 bytes, with one or two damages");
    let mut random = Random::new(8);
    for _ in 0..20_000 {
        let len = random.below(300);
        let mut note = Note::from(&samples::any(len, &mut random));
        check_note(tally, &note, || "whole".into());
        if note.normalized.is_empty() {
            continue;
        }
        let offset = random.below(note.normalized.len());
        check_damage_at(tally, &note, offset);
        let (first, damage_at) = random.choose(&DAMAGES_AT);
        let (second, damage) = random.choose(&DAMAGES);
        damage_at(&mut note, offset);
        damage(&mut note);
        check_note(tally, &note, || format!("{first} at {offset}, {second}"));
    }
}

fn long_notes(tally: &mut Tally) {
    tally.family("notes of any make up to the limit, damaged anywhere");
    let mut random = Random::new(9);
    for turn in 0..120 {
        let len = samples::long_len(turn, 2, &mut random);
        let note = Note::from(&samples::any(len, &mut random));
        check_and_damage(tally, &note);
        if !note.normalized.is_empty() {
            for _ in 0..3 {
                check_damage_at(tally, &note, random.below(note.normalized.len()));
            }
        }
    }
}

fn nothing_anywhere(tally: &mut Tally) {
    tally.family("nothing passed, at any pointer");
    for address in ADDRESSES {
        let (text, column) = (address as *const u8, address as *const Offset);
        let ours = unsafe { library::zulmyren_check_note(text, 0, text, 0, column, 0, column, 0, 0) };
        tally.case(tally::refusal(ours), ours != 0, || format!("ours {ours} on nothing at {address:#x}"));
    }
}

//! Blanking a literal in a note, in one call: beside `find_matches` and `NormalizedString::replace`, and refusals beside
//! a second judge.

use crate::characters::sequences;
use crate::every;
use crate::find;
use crate::guarded::Guarded;
use crate::library::{self, Publishing, Redaction};
use crate::note::{Note, Offset};
use crate::notes;
use crate::places::{self, Given};
use crate::random::Random;
use crate::refusals::{self, ILL_FORMED, NO_ROOM};
use crate::replace;
use crate::samples::{self, sound_notes, ADDRESSES, FILLERS};
use crate::tally::{self, hex, Report, Tally};
use crate::texts::{self, KINDS, LIMIT};
use std::str::from_utf8;
use tokenizers::NormalizedString;

pub fn compare(report: &mut Report) {
    report.call("zulmyren_redact_note", "find_matches, NormalizedString::replace and a second judge", |tally| {
        every_note(tally);
        every_room(tally);
        any_notes(tally);
        long_notes(tally);
        around_the_limit(tally);
        long_strings(tally);
        ill_formed_strings(tally);
        every_set_of_faults(tally);
        damaged_notes(tally);
        nothing_anywhere(tally);
    });
}

/// The list of the matches, what the Rust original publishes, and how many matches it finds.
struct Blanked {
    list: Vec<u8>,
    note: Note,
    matches: usize,
}

/// The lengths of the passed buffers, in the call's order: list, text, starts, ends.
type Rooms = [usize; 4];

impl Blanked {
    fn sizes(&self) -> Rooms {
        let Note { normalized, starts, ends, .. } = &self.note;
        [self.list.len(), normalized.len(), starts.len(), ends.len()]
    }
}

/// The refusal of a note and strings beside it.
pub fn judged(note: &Note, strings: &[&[u8]]) -> Option<u32> {
    let torn = strings.iter().any(|string| from_utf8(string).is_err());
    refusals::first(&[note.refusal(), if torn { ILL_FORMED } else { 0 }])
}

/// What the Rust original makes, or the refusal that docs/RULES.md gives in any room.
fn expected(note: &Note, literal: &[u8], filler: &[u8]) -> Result<Blanked, u32> {
    if let Some(refusal) = judged(note, &[literal, filler]) {
        return Err(refusal);
    }
    let list = find::expected(&note.normalized, literal)?;
    let places = places::read(&list).expect("the second implementation's list");
    let [literal, filler] = [literal, filler].map(|string| from_utf8(string).expect("it was judged"));
    let theirs = note.of_the_original();
    let matches = find::matches(theirs.get(), literal);
    let note = if literal.len() <= find::TAKEN {
        replace::published(theirs, literal, filler, &places)?
    } else {
        replace::published(theirs, Given(places.clone()), filler, &places)?
    };
    Ok(Blanked { list, note, matches })
}

/// A note, a literal and a filler in the rooms that belong to the result's sizes.
fn redact(
    tally: &mut Tally,
    (note, literal, filler): (&Note, &[u8], &[u8]),
    rooms: impl FnOnce(Rooms) -> Vec<Rooms>,
    made: impl Fn() -> String,
) {
    let result = expected(note, literal, filler);
    let nothing = Blanked { list: vec![], note: Note::default(), matches: 0 };
    let sizes = match &result {
        Ok(result) => result.sizes(),
        Err(NO_ROOM) => [5 * (2 * LIMIT + 1), LIMIT + 9, LIMIT + 9, LIMIT + 9],
        Err(_) => [note.normalized.len().min(300); 4],
    };
    for room in rooms(sizes) {
        let (refusal, wanted) = match &result {
            Err(refusal) => (*refusal, &nothing),
            Ok(_) if room.iter().zip(sizes).any(|(&room, size)| room < size) => (NO_ROOM, &nothing),
            Ok(result) => (0, result),
        };
        let [mut list, mut out] = [0, 1].map(|i| Guarded::new(room[i]));
        let [mut starts, mut ends] = [2, 3].map(|i| Guarded::new(room[i]));
        let passed = Publishing { text: out.part(), starts: starts.part(), ends: ends.part() };
        let ours = library::redact_note(note, literal, filler, list.part(), passed);
        let theirs = Redaction { refusal, len: wanted.note.normalized.len(), matches: wanted.matches };
        let held = [
            list.holds(&wanted.list),
            out.holds(&wanted.note.normalized),
            starts.holds(&wanted.note.starts),
            ends.holds(&wanted.note.ends),
        ];
        tally.case(tally::refusal(ours.refusal), ours != theirs || held != [true; 4], || {
            let ([literal, filler], made) = ([literal, filler].map(hex), made());
            format!(
                "ours {ours:?}, theirs {theirs:?}, list, text, starts, ends equal {held:?}, in rooms {room:?}, {made}: \
                 {literal} by {filler} in {note}"
            )
        });
    }
}

pub fn plainly(tally: &mut Tally, note: &Note, literal: &str, filler: &str, rooms: impl FnOnce(Rooms) -> Vec<Rooms>) {
    redact(tally, (note, literal.as_bytes(), filler.as_bytes()), rooms, || "whole".into());
}

/// Just large enough, or larger.
fn ample([list, text, starts, ends]: Rooms) -> Vec<Rooms> {
    vec![[list, text + 1, starts, ends + 2]]
}

pub fn ample_or_none(sizes: Rooms) -> Vec<Rooms> {
    vec![sizes, [0; 4]]
}

/// Just large enough, ample, and short by one in each in turn.
fn rooms(sizes: Rooms) -> Vec<Rooms> {
    let short = |i: usize| {
        let mut room = sizes;
        room[i] = sizes[i].saturating_sub(1);
        room
    };
    [sizes, sizes.map(|size| size + 100)].into_iter().chain((0..4).map(short)).collect()
}

fn every_note(tally: &mut Tally) {
    tally.family("every sound note of up to 4 bytes, every literal of up to 2 characters out of a, b and é, 5 fillers");
    for text in ["", "a", "é", "漢", "ab", "aé", "aa", "éé", "aba", "éa", "aab", "aéa"] {
        let transcripts = ["", "q", "ů", "qů"];
        for note in transcripts.iter().flat_map(|transcript| sound_notes(transcript, text)) {
            for literal in every::strings(2) {
                for filler in FILLERS {
                    plainly(tally, &note, &literal, filler, ample);
                }
            }
        }
    }
}

fn every_room(tally: &mut Tally) {
    tally.family("starting notes of up to 3 bytes, literals of up to 1 character, in every four rooms about the sizes");
    for text in ["", "a", "é", "ab", "aé", "aa"] {
        let note = Note::from(&NormalizedString::from(text));
        for literal in every::strings(1) {
            for filler in FILLERS {
                plainly(tally, &note, &literal, filler, |sizes| {
                    let about = |size: usize| [size.saturating_sub(1), size, size + 1];
                    let choices = every::list(&[0, 1, 2], 4);
                    choices.map(|choice| [0, 1, 2, 3].map(|i| about(sizes[i])[choice[i]])).collect()
                });
            }
        }
    }
}

/// Up to three characters out of the cleaned text.
pub fn literal_of(text: &str, random: &mut Random) -> String {
    let at = texts::any_boundary(text, random);
    text[at..].chars().take(random.below(4)).collect()
}

fn any_notes(tally: &mut Tally) {
    tally.family("notes of any make to 300 bytes, literals out of the cleaned text, any filler to 20 bytes");
    let mut random = Random::new(61);
    for _ in 0..20_000 {
        let len = random.below(300);
        let note = samples::any(len, &mut random);
        let literal = literal_of(note.get(), &mut random);
        let size = random.below(20);
        let filler = texts::text(*random.choose(&KINDS), size, &mut random);
        plainly(tally, &Note::from(&note), &literal, &filler, rooms);
    }
}

fn long_notes(tally: &mut Tally) {
    tally.family("notes of any make up to the limit, literals out of the cleaned text, any filler to 5 bytes");
    let mut random = Random::new(62);
    for turn in 0..240 {
        let len = samples::long_len(turn, 3, &mut random);
        let note = samples::any(len, &mut random);
        let literal = literal_of(note.get(), &mut random);
        let size = random.below(5);
        let filler = texts::text(*random.choose(&KINDS), size, &mut random);
        plainly(tally, &Note::from(&note), &literal, &filler, rooms);
    }
}

fn around_the_limit(tally: &mut Tally) {
    tally.family("cleaned texts and results about the limit, and results far past it");
    for len in LIMIT - 2..=LIMIT + 2 {
        let mut note = samples::uniform(9, len, (3, 7));
        for literal in ["n", "nn", "b", ""] {
            for filler in ["", "x", "xy", &"x".repeat(70_000)] {
                plainly(tally, &note, literal, filler, rooms);
            }
        }
        note.normalized.truncate(len - 4);
        note.starts.truncate(len - 4);
        note.ends.truncate(len - 4);
        note.normalized[100] = b'z';
        for longer in 0..5 {
            plainly(tally, &note, "z", &"12345678"[..4 + longer], rooms);
        }
    }
}

fn long_strings(tally: &mut Tally) {
    tally.family("literals as long as the text, longer, and past what the original's regular expressions take");
    for len in [1, 10, 300, LIMIT] {
        let text = texts::repeated("kůň ", len);
        let note = Note::from(&NormalizedString::from(text.as_str()));
        for longer in [0, 1, 5, 70_000, 400_000] {
            plainly(tally, &note, &texts::repeated("kůň ", len + longer), "#", rooms);
        }
        let torn = [text.as_bytes(), &[0xC3; 400_000]].concat();
        redact(tally, (&note, &torn, b"#"), ample_or_none, || "ill-formed literal".into());
        redact(tally, (&note, b"x", &torn), ample_or_none, || "ill-formed filler".into());
    }
}

fn ill_formed_strings(tally: &mut Tally) {
    tally.family("literals and fillers with a character, or a wrong or cut one, anywhere, beside notes whole or not");
    // A sound note, one with a start too many, and one whose alignments are not sound.
    for note in [0, 1 << 3, 1 << 7].map(notes::with) {
        for sequence in sequences() {
            for (before, after) in [(0, 0), (1, 1), (63, 70), (128, 131)] {
                let string = [&b"a".repeat(before), &sequence[..], &b"a".repeat(after)].concat();
                redact(tally, (&note, &string, b"x"), ample_or_none, || "in the literal".into());
                redact(tally, (&note, b"a", &string), ample_or_none, || "in the filler".into());
            }
        }
    }
}

fn every_set_of_faults(tally: &mut Tally) {
    tally.family("every set of faults out of nine of the note, an ill-formed literal or filler, and each short room");
    for (set, note) in notes::with_faults() {
        for literal in [&b"\xC3\xA9"[..], b"a\xC3"] {
            for filler in [&b"**"[..], b"*\xFF"] {
                let short = |less: Vec<usize>| [15 - less[0], 4 - less[1], 4 - less[2], 4 - less[3]];
                let in_every_room = |_| every::list(&[0, 1], 4).map(short).collect();
                redact(tally, (&note, literal, filler), in_every_room, || format!("faults {set:09b}"));
            }
        }
    }
}

fn damaged_notes(tally: &mut Tally) {
    tally.family("notes of any make, with every damage, beside strings that are whole or not");
    let mut random = Random::new(63);
    for turn in 0..400 {
        let len = 1 + random.below([10, 40, 300][turn % 3]);
        let note = samples::any(len, &mut random);
        let literal = literal_of(note.get(), &mut random).into_bytes();
        let note = Note::from(&note);
        let mut beside = |note: &Note, made: &str| {
            redact(tally, (note, &literal, "é".as_bytes()), ample_or_none, || made.into());
            redact(tally, (note, &literal, b"\xC3"), ample, || made.into());
        };
        for (name, damaged) in samples::damaged(&note) {
            beside(&damaged, name);
        }
        if !note.normalized.is_empty() {
            let at = random.below(note.normalized.len());
            for (name, damaged) in samples::damaged_at(&note, at) {
                beside(&damaged, name);
            }
        }
    }
}

/// The list of an empty text has one place: there is always something to write.
fn nothing_anywhere(tally: &mut Tally) {
    tally.family("nothing passed, at any pointer, but room for a list");
    for address in ADDRESSES {
        let (text, column) = (address as *const u8, address as *const Offset);
        let (out, written) = (address as *mut u8, address as *mut Offset);
        for room in [5, 4, 0] {
            let mut list = Guarded::new(room);
            let at = if room == 0 { out } else { list.part().as_mut_ptr() };
            let ours = unsafe {
                library::zulmyren_redact_note(
                    text, 0, text, 0, column, 0, column, 0, 0, text, 0, text, 0, at, room, out, 0, written, 0, written,
                    0,
                )
            };
            let refusal = if room < 5 { NO_ROOM } else { 0 };
            let bytes = if room < 5 { vec![] } else { places::bytes(&[((0, 0), false)]) };
            let differs = ours != Redaction { refusal, len: 0, matches: 0 } || !list.holds(&bytes);
            tally.case(tally::refusal(ours.refusal), differs, || format!("ours {ours:?} at {address:#x}"));
        }
    }
}

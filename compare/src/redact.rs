//! Blanking a literal in a fresh text, in one call: beside `NormalizedString::from` and `replace`, which searches by
//! itself.

use crate::every;
use crate::find;
use crate::guarded::Output;
use crate::library::{self, Redaction};
use crate::note::Note;
use crate::places;
use crate::random::Random;
use crate::refusals::{ILL_FORMED, NO_ROOM};
use crate::replace;
use crate::samples::{self, FILLERS};
use crate::tally::{self, hex, Report, Tally};
use crate::texts::{self, KINDS, LIMIT};
use std::str::from_utf8;
use tokenizers::NormalizedString;

pub fn compare(report: &mut Report) {
    report.call("zulmyren_redact", "NormalizedString::from, find_matches and replace", |tally| {
        every_short_text(tally);
        every_room(tally);
        every_ill_formed_string(tally);
        signs_of_regular_expressions(tally);
        any_texts(tally);
        around_the_limit(tally);
    });
}

/// The lengths of the passed buffers, in the call's order: text, starts, ends.
type Rooms = [usize; 3];

fn sizes(published: &Note) -> Rooms {
    [published.normalized.len(), published.starts.len(), published.ends.len()]
}

/// What the Rust original publishes, and how many matches it finds; or the refusal that docs/RULES.md gives in any room.
fn expected([text, literal, filler]: [&[u8]; 3]) -> Result<(Note, usize), u32> {
    let list = find::expected(text, literal)?;
    let filler = from_utf8(filler).map_err(|_| ILL_FORMED)?;
    let [text, literal] = [text, literal].map(|string| from_utf8(string).expect("it was judged"));
    let places = places::read(&list).expect("the second implementation's list");
    let published = replace::published(NormalizedString::from(text), literal, filler, &places)?;
    Ok((published, find::matches(text, literal)))
}

/// Our answer in these rooms, and which of the three buffers hold what they are to.
fn in_rooms([text, literal, filler]: [&[u8]; 3], rooms: Rooms, wanted: &Note) -> (Redaction, [bool; 3]) {
    let mut out = Output::new(rooms);
    let ours = library::redact(text, literal, filler, out.passed());
    (ours, out.hold(Some(wanted)))
}

fn redact(tally: &mut Tally, strings: [&[u8]; 3], rooms: impl FnOnce(Rooms) -> Vec<Rooms>) {
    let result = expected(strings);
    let nothing = Note::default();
    let sizes = result.as_ref().map_or([strings[0].len().min(300); 3], |(published, _)| sizes(published));
    for room in rooms(sizes) {
        let (refusal, wanted, matches) = match &result {
            Err(refusal) => (*refusal, &nothing, 0),
            Ok(_) if room.iter().zip(sizes).any(|(&room, size)| room < size) => (NO_ROOM, &nothing, 0),
            Ok((published, matches)) => (0, published, *matches),
        };
        let (ours, held) = in_rooms(strings, room, wanted);
        let theirs = Redaction { refusal, len: wanted.normalized.len(), matches };
        tally.case(tally::refusal(ours.refusal), ours != theirs || held != [true; 3], || {
            let [text, literal, filler] = strings.map(hex);
            format!(
                "ours {ours:?}, theirs {theirs:?}, buffers equal {held:?}, in rooms {room:?}, {literal} by {filler} in \
                 {text}"
            )
        });
    }
}

/// Just large enough, and ample.
fn enough(sizes: Rooms) -> Vec<Rooms> {
    vec![sizes, sizes.map(|size| 10 * size + 100)]
}

/// As above, and short by one in each in turn.
fn rooms(sizes: Rooms) -> Vec<Rooms> {
    let short = |i: usize| {
        let mut room = sizes;
        room[i] = sizes[i].saturating_sub(1);
        room
    };
    enough(sizes).into_iter().chain((0..3).map(short)).collect()
}

fn every_short_text(tally: &mut Tally) {
    tally.family("every text of up to 5 characters out of a, b and é, every literal of up to 2, five fillers");
    for text in every::strings(5) {
        for literal in every::strings(2) {
            for filler in FILLERS {
                redact(tally, [&text, &literal, filler].map(str::as_bytes), enough);
            }
        }
    }
}

fn every_room(tally: &mut Tally) {
    tally.family(
        "every text of up to 3 characters, every literal of up to 1, five fillers, short in each buffer in turn",
    );
    for text in every::strings(3) {
        for literal in every::strings(1) {
            for filler in FILLERS {
                redact(tally, [&text, &literal, filler].map(str::as_bytes), rooms);
            }
        }
    }
}

fn every_ill_formed_string(tally: &mut Tally) {
    tally.family("texts, literals and fillers of up to 2 of 4 bytes, well-formed or not, in enough room and in none");
    let all = every::texts(b"a\xC3\xA9\xFF", 2);
    for text in &all {
        for literal in &all {
            for filler in &all {
                redact(tally, [text, literal, filler], |sizes| vec![sizes, [0; 3]]);
            }
        }
    }
}

/// The original searches by a regular expression, and replaces by a string that is none.
fn signs_of_regular_expressions(tally: &mut Tally) {
    tally.family("every text of up to 5 signs out of . * ( $ and \\, every literal of up to 2, two fillers");
    for text in every::texts(b".*($\\", 5) {
        for literal in every::texts(b".*($\\", 2) {
            for filler in [&b"$0"[..], b"\\"] {
                redact(tally, [&text, &literal, filler], enough);
            }
        }
    }
}

fn any_texts(tally: &mut Tally) {
    tally.family("any text up to the limit, literals out of it, any filler to 20 bytes, in all rooms");
    let mut random = Random::new(47);
    for turn in 0..1_500 {
        let (text, literal) = samples::text_and_literal(turn, &mut random);
        let size = random.below(20);
        let filler = texts::text(*random.choose(&KINDS), size, &mut random);
        redact(tally, [&text, &literal, &filler].map(|string| string.as_bytes()), rooms);
    }
}

fn around_the_limit(tally: &mut Tally) {
    tally.family("texts and results about the limit, and results far past the limit");
    for len in LIMIT - 2..=LIMIT + 3 {
        let mut text = vec![b'a'; len];
        for literal in [&b"a"[..], b"aa", b"b", b""] {
            for filler in [&b""[..], b"x", b"xy", &[b'x'; 70_000]] {
                redact(tally, [&text, literal, filler], rooms);
            }
        }
        text[100] = b'z';
        for longer in 0..4 {
            redact(tally, [&text[..len - 4], b"z", &b"12345678"[..5 + longer]], rooms);
        }
    }
}

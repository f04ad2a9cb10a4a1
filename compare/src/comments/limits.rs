//! What the Rust original takes or panics on, and this library refuses; and the other way round.

use super::{code_answers, note_of, panics};
use crate::library::{self, Offsets};
use crate::made;
use crate::note::Note;
use crate::places::{Given, Place};
use crate::refusals::{BAD_MATCHES, ILL_FORMED, LENGTH_MISMATCH, MISALIGNED, NO_ROOM, TOO_LONG};
use crate::tally::Tally;
use crate::texts::LIMIT;
use tokenizers::normalizer::Range;
use tokenizers::pattern::Pattern;
use tokenizers::NormalizedString;

pub fn compare(tally: &mut Tally) {
    texts(tally);
    results(tally);
    shifts(tally);
    parts_that_do_not_fit(tally);
    broken_lists(tally);
    wide_ranges(tally);
    long_literals(tally);
}

fn texts(tally: &mut Tally) {
    tally.family("a text of one byte more than the limit; bytes that are no text");
    let (mut starts, mut ends) = (vec![0; LIMIT + 1], vec![0; LIMIT + 1]);
    for (len, refusal) in [(LIMIT, 0), (LIMIT + 1, TOO_LONG)] {
        let text = "a".repeat(len);
        code_answers(tally, "a text", len, NormalizedString::from(text.as_str()).len());
        code_answers(tally, "a text", refusal, library::from_text(text.as_bytes(), &mut starts, &mut ends));
    }
    code_answers(tally, "byte FF", ILL_FORMED, library::from_text(&[0xFF], &mut starts, &mut ends));
}

fn results(tally: &mut Tally) {
    tally.family("a result of one byte more than the limit");
    let (note, filler) = (NormalizedString::from("a"), "x".repeat(LIMIT + 1));
    let mut theirs = note.clone();
    theirs.replace("a", &filler).expect("a literal is a regular expression");
    code_answers(tally, "a by more x than the limit", LIMIT + 1, theirs.len());
    let ours = made::replaced(&Note::from(&note), &[((0, 1), true)], &filler);
    code_answers(tally, "a by more x than the limit", Some(NO_ROOM), ours.err());
}

fn shifts(tally: &mut Tally) {
    tally.family("a shift and a transcript that together are one past the limit");
    let text = NormalizedString::from("a".repeat(LIMIT + 1));
    let slice = text.slice(Range::Original(LIMIT..LIMIT + 1)).expect("both ends are boundaries");
    code_answers(tally, "the last byte", (LIMIT, LIMIT + 1), slice.offsets_original());
    code_answers(tally, "the last byte", TOO_LONG, library::check_note(&Note::from(&slice)));
}

fn parts_that_do_not_fit(tally: &mut Tally) {
    tally.family("a note whose parts do not fit together");
    let inside = note_of("é", "ab", &[(0, 1), (1, 2)]);
    code_answers(tally, "é cut in two", Some(0..1), inside.convert_offsets(Range::Normalized(0..1)));
    code_answers(tally, "é cut in two", None, inside.get_range_original(Range::Normalized(0..1)));
    code_answers(tally, "é cut in two", MISALIGNED, library::check_note(&Note::from(&inside)));
    let short = note_of("ab", "ab", &[(0, 1)]);
    let replace = || short.clone().replace("b", "x");
    code_answers(tally, "ab, one alignment", true, panics(replace));
    code_answers(tally, "ab, one alignment", LENGTH_MISMATCH, library::check_note(&Note::from(&short)));
}

fn broken_lists(tally: &mut Tally) {
    tally.family("lists whose matched places overlap, go back, pass the end or cut a character");
    let lists: [(&str, &[Place]); 7] = [
        ("abc", &[((0, 2), true), ((1, 3), true)]),
        ("abc", &[((1, 2), true), ((0, 1), true)]),
        ("abc", &[((0, 1), true), ((0, 1), true)]),
        ("abc", &[((2, 1), true)]),
        ("abc", &[((0, 9), true)]),
        ("abc", &[((9, 9), true)]),
        ("é", &[((0, 1), true), ((1, 2), false)]),
    ];
    for (text, places) in lists {
        let (note, input) = (NormalizedString::from(text), format!("{text}, {places:?}"));
        code_answers(tally, &input, true, panics(|| note.clone().replace(Given(places.to_vec()), "x")));
        code_answers(tally, &input, Some(BAD_MATCHES), made::replaced(&Note::from(&note), places, "x").err());
    }
}

fn wide_ranges(tally: &mut Tally) {
    tally.family("ends of more than 32 bits");
    let note = NormalizedString::from("é");
    code_answers(tally, "0..2^32", Some(0..2), note.convert_offsets(Range::Original(0..1 << 32)));
    let ours = library::convert_offsets(&Note::from(&note), true, 0, u32::MAX);
    code_answers(tally, "0..2^32 - 1", Offsets { refusal: 0, start: 0, end: 2 }, ours);
}

/// The lengths are those of the regex that Debian has, 1.7.
fn long_literals(tally: &mut Tally) {
    tally.family("literals whose regular expression is too large");
    let mut list = [0; 5];
    for (character, most) in [("a", 327_656), ("é", 163_828), ("漢", 109_219), ("😀", 81_914)] {
        for (count, taken) in [(most, true), (most + 1, false)] {
            let literal = character.repeat(count);
            let input = format!("{count} times {character}");
            code_answers(tally, &input, taken, literal.as_str().find_matches("b").is_ok());
            code_answers(tally, &input, 0, library::find_matches(b"b", literal.as_bytes(), &mut list).refusal);
        }
    }
}

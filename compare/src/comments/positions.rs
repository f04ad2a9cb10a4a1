//! Functions that go between bytes and characters. This library has the converter and split offsets alone.

use super::{code_answers, panics, splits_here};
use crate::library::{self, Offsets};
use crate::note::Note;
use crate::places;
use crate::tally::Tally;
use tokenizers::normalizer::SplitDelimiterBehavior::Isolated;
use tokenizers::normalizer::{bytes_to_char, char_to_bytes, get_range_of};
use tokenizers::pre_tokenizer::{Converter, OffsetType, PreTokenizedString};
use tokenizers::{NormalizedString, OffsetReferential};

pub fn compare(tally: &mut Tally) {
    from_bytes(tally);
    to_bytes(tally);
    ranges_of_chars(tally);
    converter(tally);
    splits(tally);
}

fn from_bytes(tally: &mut Tally) {
    tally.family("bytes_to_char is None for half characters, past the text and at its end, and answers 0..0 always");
    for (text, range, said) in [
        ("é", 0..1, None),
        ("aé", 2..3, None),
        ("ab", 0..9, None),
        ("ab", 2..2, None),
        ("ab", 1..1, Some(1..1)),
        ("", 0..0, Some(0..0)),
        ("é", 0..0, Some(0..0)),
    ] {
        code_answers(tally, &format!("{text}, {range:?}"), said, bytes_to_char(text, range));
    }
}

fn to_bytes(tally: &mut Tally) {
    tally.family("char_to_bytes cuts ranges that end past the text, is None from its end on, panics on reversed ones");
    for (text, range, said) in [
        ("ab", 0..9, Some(0..2)),
        ("ab", 5..9, None),
        ("é", 0..2, Some(0..2)),
        ("ab", 1..1, Some(1..1)),
        ("ab", 2..2, None),
        ("", 0..0, Some(0..0)),
    ] {
        code_answers(tally, &format!("{text}, {range:?}"), said, char_to_bytes(text, range));
    }
    let reversed = std::ops::Range { start: 2, end: 1 };
    code_answers(tally, "ab, 2..1", true, panics(|| char_to_bytes("ab", reversed)));
}

fn ranges_of_chars(tally: &mut Tally) {
    tally.family("get_range_of has no empty range but 0..0, and overflows");
    for (text, range, said) in
        [("ab", 0..0, Some("")), ("", 0..0, Some("")), ("ab", 1..1, None), ("ab", 2..2, None), ("ab", 0..9, None)]
    {
        code_answers(tally, &format!("{text}, {range:?}"), said, get_range_of(text, range));
    }
    code_answers(tally, "ab, ..=MAX", true, panics(|| get_range_of("ab", ..=usize::MAX)));
}

fn converter(tally: &mut Tally) {
    tally.family("the converter: ends past the text, half characters, the text's end");
    for (text, (start, end), said) in [
        ("abc", (0, 3), Some((0, 3))),
        ("abc", (0, 10), Some((0, 2))),
        ("abc", (2, 10), Some((2, 4))),
        ("é", (0, 1), Some((0, 0))),
        ("é", (1, 2), Some((0, 1))),
        ("abc", (3, 3), None),
        ("", (0, 0), None),
    ] {
        let input = format!("{text}, {start}..{end}");
        let ours = library::char_offsets(text.as_bytes(), start as u32, end as u32);
        code_answers(tally, &input, Offsets::of(said), ours);
        code_answers(tally, &input, said, Converter::new(text).convert((start, end)));
    }
}

/// Each note is one split: all of it, which has three characters.
fn splits(tally: &mut Tally) {
    tally.family("get_splits looks up the cleaned text's offsets in the transcript");
    for (transcript, cleaned) in [("é a", "e a"), ("e a", "é a")] {
        let mut note = NormalizedString::from(transcript);
        note.map(|c| if c == ' ' || c == 'a' { c } else { cleaned.chars().next().unwrap_or(c) });
        let (whole, here) = (places::bytes(&[((0, note.len()), false)]), Note::from(&note));
        code_answers(tally, transcript, Ok(vec![(0, 2)]), splits_here(&here, &whole, Isolated, [false, true]));
        let splits = PreTokenizedString::from(note);
        let splits = splits.get_splits(OffsetReferential::Normalized, OffsetType::Char);
        code_answers(tally, transcript, vec![(cleaned, (0, 2), &None)], splits);
    }

    tally.family("get_splits without a type of offsets gives bytes");
    let splits = PreTokenizedString::from("é");
    let splits = splits.get_splits(OffsetReferential::Original, OffsetType::None);
    code_answers(tally, "é", vec![("é", (0, 2), &None)], splits);
}

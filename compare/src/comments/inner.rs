//! What the comments of two inner functions and of `into_encoding` say. The original's crate keeps them to itself, or
//! hands its tokens to a type that is not to be had: src/original.rs opens them.

use super::tokens::{three, token, whole};
use super::{code_answers, note_of, panics};
use crate::library;
use crate::made;
use crate::note::Note;
use crate::refusals::{MISALIGNED, MISSING, NOT_BOUNDARY};
use crate::tally::Tally;
use std::ops;
use tokenizers::normalizer::Range::{Normalized, Original};
use tokenizers::normalizer::SplitDelimiterBehavior::Removed;
use tokenizers::pre_tokenizer::{OffsetType, PreTokenizedString};
use tokenizers::TruncationDirection::Left;
use tokenizers::{Encoded, NormalizedString, Offsets};

pub fn compare(tally: &mut Tally) {
    validated(tally);
    without_text(tally);
    overlapping(tally);
    without_offsets(tally);
    ranges_of_tokens(tally);
    words(tally);
    splits_without_a_token(tally);
    characters_of_a_slice(tally);
}

fn validated(tally: &mut Tally) {
    tally.family("validate_range refuses ends past the text and takes reversed ranges; their slices here are 5 and 10");
    let note = NormalizedString::from("abc");
    for (start, end, taken, refusal) in
        [(0, 9, false, NOT_BOUNDARY), (9, 9, false, NOT_BOUNDARY), (2, 1, true, MISSING), (3, 0, true, MISSING)]
    {
        let range = ops::Range { start, end };
        for range in [Normalized(range.clone()), Original(range)] {
            let input = format!("abc, {range:?}");
            code_answers(tally, &input, taken.then(|| range.clone()), note.validated(range.clone()));
            code_answers(tally, &input, None, note.slice(range.clone()));
            code_answers(tally, &input, Some(refusal), made::sliced(&Note::from(&note), range).map(|_| ()).err());
        }
    }
}

/// This library has no such call; it takes the notes.
fn without_text(tally: &mut Tally) {
    tally.family("alignments_original panics where the cleaned text is empty");
    let (empty, mut cleared) = (NormalizedString::from(""), NormalizedString::from("a"));
    cleared.clear();
    for (input, note) in [("the empty text", &empty), ("a after clear", &cleared)] {
        code_answers(tally, input, true, panics(|| note.alignments_of_original()));
        code_answers(tally, input, 0, library::check_note(&Note::from(note)));
    }
    let note = NormalizedString::from("é");
    code_answers(tally, "é", vec![(0, 2), (0, 2)], note.alignments_of_original());
}

fn overlapping(tally: &mut Tally) {
    tally.family("alignments_original panics where alignments overlap, and where they go back");
    let overlapping = note_of("ab", "xy", &[(0, 2), (1, 2)]);
    let mut back = NormalizedString::from("ab");
    back.transform_range(Normalized(0..1), [('x', 0), ('y', 0), ('z', 1)], 0);
    for (input, note, refusal) in [("xy of ab", &overlapping, 0), ("xyzb of ab", &back, MISALIGNED)] {
        code_answers(tally, input, true, panics(|| note.alignments_of_original()));
        code_answers(tally, input, refusal, library::check_note(&Note::from(note)));
    }
    let alike = note_of("ab", "xy", &[(0, 2), (0, 2)]);
    code_answers(tally, "xy of ab, both at (0,2)", vec![(0, 2), (0, 2)], alike.alignments_of_original());
}

/// What `into_encoding` hands on.
fn encoded(splits: PreTokenizedString, word: Option<u32>, unit: OffsetType) -> Result<Vec<Encoded>, String> {
    let encoding = splits.into_encoding(word, 3, unit).map_err(|error| error.to_string())?;
    Ok(encoding.0)
}

/// Of a note in one split, with one token.
fn encoded_token(note: NormalizedString, offsets: Offsets, word: Option<u32>, unit: OffsetType) -> Encoded {
    let mut splits = PreTokenizedString::from(note);
    splits.tokenize(|note| Ok(vec![token(note.get(), offsets)])).expect("every split has a token");
    let mut tokens = encoded(splits, word, unit).expect("every split has a token");
    assert_eq!(tokens.len(), 1, "one token");
    tokens.remove(0)
}

fn without_offsets(tally: &mut Tally) {
    tally.family("into_encoding without offsets: no word, no text, type 0");
    for (unit, said) in [
        (OffsetType::Byte, (7, "a".to_owned(), (0, 1), Some(5), 3)),
        (OffsetType::Char, (7, "a".to_owned(), (0, 1), Some(5), 3)),
        (OffsetType::None, (7, String::new(), (0, 0), None, 0)),
    ] {
        let code = encoded_token(NormalizedString::from("a"), (0, 1), Some(5), unit);
        code_answers(tally, &format!("a, word 5, type 3, {unit:?}"), said, code);
    }
}

fn ranges_of_tokens(tally: &mut Tally) {
    tally.family("into_encoding: a range that converts to nothing takes no shift, an empty one is not converted");
    let slice = NormalizedString::from("abc").slice(Original(1..3)).expect("both ends are boundaries");
    let mut longer = NormalizedString::from("ab");
    longer.prepend("x");
    for (note, offsets, said) in [
        (&slice, (0, 1), (1, 2)),
        (&slice, (0, 9), (0, 9)),
        (&slice, (1, 0), (1, 0)),
        (&slice, (9, 9), (10, 10)),
        (&longer, (1, 2), (0, 1)),
        (&longer, (1, 1), (1, 1)),
    ] {
        let code = encoded_token(note.clone(), offsets, None, OffsetType::Byte);
        code_answers(tally, &format!("{offsets:?} of {note:?}"), said, code.2);
    }
}

/// Text and word of each token.
fn of_words(splits: PreTokenizedString) -> Vec<(String, Option<u32>)> {
    let tokens = encoded(splits, None, OffsetType::Byte).expect("every split has a token");
    tokens.into_iter().map(|(_, value, _, word, _)| (value, word)).collect()
}

fn words(tally: &mut Tally) {
    tally.family("into_encoding numbers the splits that are left");
    let pair = |value: &str, word: u32| (value.to_owned(), Some(word));
    let code = of_words(three([true; 3]));
    code_answers(tally, "a-b", vec![pair("a", 0), pair("-", 1), pair("b", 2)], code);
    let mut limited = three([false; 3]);
    limited.tokenize_with_limit(whole, 1, Left).expect("every split has a token");
    code_answers(tally, "a-b, limit 1, Left", vec![pair("b", 0)], of_words(limited));
    let mut removed = PreTokenizedString::from("a-b");
    removed.split(|_, note| note.split("-", Removed)).expect("a literal is a regular expression");
    removed.tokenize(whole).expect("every split has a token");
    code_answers(tally, "a-b, Removed", vec![pair("a", 0), pair("b", 1)], of_words(removed));
}

fn splits_without_a_token(tally: &mut Tally) {
    tally.family("into_encoding does not fail for a split whose list of tokens is empty");
    let mut splits = PreTokenizedString::from("a");
    code_answers(tally, "a, no list", true, encoded(splits.clone(), None, OffsetType::Byte).is_err());
    splits.tokenize(|_| Ok(vec![])).expect("nothing fails");
    code_answers(tally, "a, an empty list", Ok(vec![]), encoded(splits, None, OffsetType::Byte));
}

fn characters_of_a_slice(tally: &mut Tally) {
    tally.family("into_encoding of a slice: offsets of the longer transcript, looked up in the slice's own, or bytes");
    for (text, start, bytes, characters) in [("aé", 1, (1, 3), (0, 2)), ("ééé", 4, (4, 6), (4, 6))] {
        let note = NormalizedString::from(text).slice(Original(start..start + 2)).expect("both ends are boundaries");
        for (unit, said) in [(OffsetType::Byte, bytes), (OffsetType::Char, characters)] {
            let code = encoded_token(note.clone(), (0, 2), None, unit);
            code_answers(tally, &format!("é of {text}, {unit:?}"), said, code.2);
        }
    }
}

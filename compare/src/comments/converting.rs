//! What the comments of `convert_offsets`, of `expand_alignments`, of reading and of the struct itself say.

use super::{code_answers, converts, note_of};
use crate::library::{self, Offsets, RangeCall};
use crate::note::Note;
use crate::refusals::MISSING;
use crate::tally::Tally;
use std::ops;
use tokenizers::normalizer::Range::{self, Normalized, Original};
use tokenizers::NormalizedString;

pub fn compare(tally: &mut Tally) {
    outside_range(tally);
    inside_the_text(tally);
    cut_characters(tally);
    readings(tally);
    empty_ranges(tally);
    empty_texts(tally);
    zero_width(tally);
    gaps(tally);
    after_replacing(tally);
    shifted(tally);
}

fn outside_range(tally: &mut Tally) {
    tally.family("convert_offsets answers ranges outside the text: empty ones, and the transcript's, which are cut");
    let note = NormalizedString::from("aéb");
    converts(tally, &note, Normalized(900..900), Some(900..900));
    converts(tally, &note, Original(900..900), Some(900..900));
    converts(tally, &note, Original(0..9), Some(0..4));
    converts(tally, &note, Original(8..9), Some(4..4));
    converts(tally, &note, Normalized(0..9), None);
}

fn inside_the_text(tally: &mut Tally) {
    tally.family("convert_offsets answers None, or an \"inexistent end\", for ranges inside the text");
    converts(tally, &NormalizedString::from("é"), Original(0..1), None);
    let note = NormalizedString::from("aéb");
    converts(tally, &note, Original(1..2), Some(1..1));
    converts(tally, &note, Original(2..3), Some(3..3));
}

fn cut_characters(tally: &mut Tally) {
    tally.family("a character that a range cuts: a cleaned range takes all of it, a transcript range leaves it out");
    let note = NormalizedString::from("aéb");
    for (range, widened, left) in [(0..2, 0..3, 0..1), (1..2, 1..3, 1..1), (2..4, 1..4, 3..4)] {
        converts(tally, &note, Normalized(range.clone()), Some(widened));
        converts(tally, &note, Original(range), Some(left));
    }
}

/// What a range reads in the cleaned text and in the transcript, by the original and by this library.
fn reads(tally: &mut Tally, note: &NormalizedString, range: Range<ops::Range<usize>>, said: [Option<&str>; 2]) {
    let input = format!("{range:?} of {note:?}");
    code_answers(tally, &input, said, [note.get_range(range.clone()), note.get_range_original(range.clone())]);
    let ours = [
        part(note, library::zulmyren_get_range, range.clone(), note.get()),
        part(note, library::zulmyren_get_range_original, range, note.get_original()),
    ];
    code_answers(tally, &input, said.map(|part| part.ok_or(MISSING)), ours);
}

/// The part of a text that one of this library's readings answers, or its refusal.
fn part<'a>(
    note: &NormalizedString,
    call: RangeCall,
    range: Range<ops::Range<usize>>,
    text: &'a str,
) -> Result<&'a str, u32> {
    let (of_original, asked) = (matches!(range, Original(_)), range.unwrap());
    let answer = library::on_range(call, &Note::from(note), of_original, asked.start as u32, asked.end as u32);
    match answer {
        Offsets { refusal: 0, start, end } => Ok(&text[start as usize..end as usize]),
        Offsets { refusal, .. } => Err(refusal),
    }
}

fn readings(tally: &mut Tally) {
    tally.family("half a character is read as nothing, as an empty text or as all of it");
    let note = NormalizedString::from("aéb");
    reads(tally, &note, Normalized(1..2), [None, Some("é")]);
    reads(tally, &note, Original(1..2), [Some(""), None]);

    tally.family("an empty range of the other text is read by its number, past the text or inside a character");
    let mut cleared = NormalizedString::from("ab");
    cleared.clear();
    reads(tally, &cleared, Original(1..1), [None, Some("")]);
    reads(tally, &note_of("é", "ab", &[(0, 2), (0, 2)]), Normalized(1..1), [Some(""), None]);
}

fn empty_ranges(tally: &mut Tally) {
    tally.family("an empty range keeps its number, which counts in the other text");
    let mut note = NormalizedString::from("abc");
    note.prepend("x");
    code_answers(tally, "abc with x in front", "xabc", note.get());
    // Before `b`, which is at 1 in the one text and at 2 in the other.
    converts(tally, &note, Original(1..1), Some(1..1));
    converts(tally, &note, Original(1..2), Some(2..3));
}

fn empty_texts(tally: &mut Tally) {
    tally.family("0..0 of an empty text is not expanded");
    let (cleaned, transcript) = (note_of("ab", "", &[]), note_of("", "x", &[(0, 0)]));
    converts(tally, &cleaned, Normalized(0..0), Some(0..0));
    converts(tally, &transcript, Original(0..0), Some(0..0));
    code_answers(tally, "ab without all, ..", Some(0..0), cleaned.convert_offsets(Normalized(..)));
    code_answers(tally, "x of nothing, ..", Some(0..0), transcript.convert_offsets(Original(..)));
}

fn zero_width(tally: &mut Tally) {
    tally.family("alignments of zero width are left out at the start of an answer, and counted at its end");
    converts(tally, &note_of("ab", "xab", &[(0, 0), (0, 1), (1, 2)]), Original(0..1), Some(1..2));
    let between = note_of("ab", "axb", &[(0, 1), (1, 1), (1, 2)]);
    converts(tally, &between, Original(0..1), Some(0..2));
    converts(tally, &between, Original(1..2), Some(2..3));
}

fn gaps(tally: &mut Tally) {
    tally.family("expand_alignments covers what no alignment has");
    let mut note = NormalizedString::from("a12b");
    note.replace("12", "").expect("a literal is a regular expression");
    converts(tally, &note, Normalized(0..2), Some(0..4));
    reads(tally, &note, Normalized(0..2), [Some("ab"), Some("a12b")]);
}

fn after_replacing(tally: &mut Tally) {
    tally.family("after replace, offsets of one text give another part of the other");
    let mut note = NormalizedString::from("nest 12");
    note.replace("12", "**").expect("a literal is a regular expression");
    converts(tally, &note, Normalized(5..7), Some(6..7));
    converts(tally, &note, Original(5..6), Some(5..5));
    reads(tally, &note, Normalized(5..7), [Some("**"), Some("2")]);
    reads(tally, &note, Original(5..6), [Some(""), Some("1")]);
}

fn shifted(tally: &mut Tally) {
    tally.family("converted offsets are without the shift");
    let slice = NormalizedString::from("abc").slice(Original(1..3)).expect("both ends are boundaries");
    code_answers(tally, "bc of abc", (1, 3), slice.offsets_original());
    converts(tally, &slice, Normalized(0..1), Some(0..1));
}

//! What the comment of `slice` says.

use super::{code_answers, note_of};
use crate::made;
use crate::note::Note;
use crate::refusals::{MISSING, NOT_BOUNDARY, TOO_LONG};
use crate::tally::Tally;
use crate::texts::LIMIT;
use std::ops;
use tokenizers::normalizer::Range::{self, Normalized, Original};
use tokenizers::NormalizedString;

pub fn compare(tally: &mut Tally) {
    none_on_boundaries(tally);
    empty_slices(tally);
    transcript_without_text(tally);
    text_without_transcript(tally);
    parts_between(tally);
}

/// Transcript, cleaned text, shift.
type Fields<'a> = (&'a str, &'a str, usize);

fn fields(slice: &NormalizedString) -> Fields<'_> {
    (slice.get_original(), slice.get(), slice.original_shift())
}

/// One slice, by the original and by this library.
fn slices(tally: &mut Tally, note: &NormalizedString, range: Range<ops::Range<usize>>, said: Result<Fields, u32>) {
    let input = format!("{range:?} of {note:?}");
    let theirs = note.slice(range.clone());
    code_answers(tally, &input, said.ok(), theirs.as_ref().map(fields));
    let ours = made::sliced(&Note::from(note), range).map(|slice| slice.of_the_original());
    code_answers(tally, &input, said, ours.as_ref().map(fields).map_err(|&refusal| refusal));
}

fn reversed(start: usize, end: usize) -> ops::Range<usize> {
    ops::Range { start, end }
}

/// Without the letters of `text`.
fn without(text: &str, letters: &str) -> NormalizedString {
    let mut note = NormalizedString::from(text);
    note.filter(|c| !letters.contains(c));
    note
}

fn none_on_boundaries(tally: &mut Tally) {
    tally.family("slice is None on boundaries too: reversed ranges, ranges that convert to nothing, and past the text");
    let fresh = NormalizedString::from("abc");
    for range in [Normalized(reversed(2, 1)), Original(reversed(3, 0))] {
        slices(tally, &fresh, range, Err(MISSING));
    }
    for range in [Normalized(reversed(9, 1)), Normalized(9..9), Original(0..4)] {
        slices(tally, &fresh, range, Err(NOT_BOUNDARY));
    }
    slices(tally, &note_of("ab", "x", &[(0, 2)]), Original(0..1), Err(MISSING));
    slices(tally, &without("abc", "abc"), Original(0..3), Err(MISSING));
    slices(tally, &without("abc", "abc"), Original(1..1), Err(MISSING));
    slices(tally, &without("abc", "abc"), Original(0..0), Ok(("", "", 0)));
}

/// The number is used in the transcript as it is: past it, or inside a character.
fn empty_slices(tally: &mut Tally) {
    tally.family("an empty slice adds its number to the shift, past the transcript and inside a character too");
    let mut longer = NormalizedString::from("ab");
    longer.prepend("1234567");
    slices(tally, &longer, Normalized(7..7), Ok(("", "", 7)));
    slices(tally, &longer, Normalized(7..8), Ok(("a", "a", 0)));
    let wide = note_of("漢", "ab", &[(0, 3), (0, 3)]);
    slices(tally, &wide, Normalized(1..1), Ok(("", "", 1)));
    code_answers(tally, "漢", (1, 1), wide.slice(Normalized(1..1)).map_or((0, 0), |slice| slice.offsets_original()));
    // Inside a character of the cleaned text, where the range is of the transcript.
    slices(tally, &note_of("ab", "漢", &[(0, 2); 3]), Original(1..1), Ok(("", "", 1)));
    // Past the limit: what is answered is no note that could be passed again.
    let last = NormalizedString::of_fields("".into(), "abc".into(), vec![(0, 0); 3], LIMIT);
    slices(tally, &last, Normalized(3..3), Ok(("", "", LIMIT + 3)));
    let slice = made::sliced(&Note::from(&last), Normalized(3..3)).map(|slice| slice.refusal());
    code_answers(tally, "a shift past the limit", Ok(TOO_LONG), slice);
}

fn transcript_without_text(tally: &mut Tally) {
    tally.family("a slice of the transcript has no cleaned text where no alignment lies in its range");
    let mut blanked = NormalizedString::from("nest 12");
    blanked.replace("12", "**").expect("a literal is a regular expression");
    slices(tally, &blanked, Original(5..6), Ok(("1", "", 5)));
    slices(tally, &blanked, Original(6..7), Ok(("2", "**", 6)));
    slices(tally, &blanked, Original(5..7), Ok(("12", "**", 5)));
    // What was in the transcript before the match stays behind where the cleaned text is cut.
    slices(tally, &blanked, Normalized(5..7), Ok(("2", "**", 6)));
}

fn text_without_transcript(tally: &mut Tally) {
    tally.family("a cleaned slice of empty alignments has no transcript, and a transcript slice leaves them out");
    let before = note_of("ab", "xab", &[(0, 0), (0, 1), (1, 2)]);
    slices(tally, &before, Normalized(0..1), Ok(("", "x", 0)));
    slices(tally, &before, Original(0..1), Ok(("a", "a", 0)));
    slices(tally, &before, Original(0..2), Ok(("ab", "ab", 0)));
    slices(tally, &before, Normalized(0..3), Ok(("ab", "xab", 0)));
}

fn parts_between(tally: &mut Tally) {
    tally.family("a cleaned slice has what was removed inside it, and not what was removed at its ends");
    let short = without("1a2b3", "123");
    slices(tally, &short, Normalized(0..2), Ok(("a2b", "ab", 1)));
    slices(tally, &short, Original(0..5), Ok(("1a2b3", "ab", 0)));
    slices(tally, &short, Normalized(1..2), Ok(("b", "b", 3)));
}

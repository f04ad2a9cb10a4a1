//! Where the Rust original departs from its own comments, and limits that it does not have: each input of
//! docs/DIFFERENCES.md, run on the original, and on this library where it has the call.

mod converting;
mod editing;
mod inner;
mod limits;
mod office;
mod positions;
mod replacing;
mod slicing;
mod splitting;
mod tokens;

use crate::library::{self, Cutting, Offsets};
use crate::note::{position, Note};
use crate::split;
use crate::tally::{Report, Tally};
use std::fmt::Debug;
use std::ops;
use std::panic::{self, AssertUnwindSafe};
use tokenizers::normalizer::{Range, SplitDelimiterBehavior};
use tokenizers::{NormalizedString, Offsets as Pair};

pub fn compare(report: &mut Report) {
    report.call("comments of the original", "its code", |tally| {
        lengths(tally);
        lengths_of_ranges(tally);
        full_range(tally);
        converting::compare(tally);
        positions::compare(tally);
        replacing::compare(tally);
        editing::compare(tally);
        slicing::compare(tally);
        splitting::compare(tally);
        tokens::compare(tally);
        inner::compare(tally);
    });
    report.call("limits that the original does not have", "its code", limits::compare);
    report.call("docs/OFFICE-RUNS.md", "this library", office::compare);
}

/// One input: what is said to be answered, and what is.
fn code_answers<T: Debug + PartialEq>(tally: &mut Tally, input: &str, said: T, code: T) {
    let answer = if said == code { "as the documents say" } else { "otherwise" };
    tally.case(answer, said != code, || format!("said {said:?}, code {code:?} on {input}"));
}

/// Whether the code panics: on an overflow too, since this program is built with checks for it.
fn panics<T>(code: impl FnOnce() -> T) -> bool {
    let hook = panic::take_hook();
    panic::set_hook(Box::new(|_| {}));
    let panicked = panic::catch_unwind(AssertUnwindSafe(code)).is_err();
    panic::set_hook(hook);
    panicked
}

/// One conversion, by the original and by this library.
fn converts(
    tally: &mut Tally,
    note: &NormalizedString,
    range: Range<ops::Range<usize>>,
    said: Option<ops::Range<usize>>,
) {
    let input = format!("{range:?} of {note:?}");
    let (of_original, asked) = (matches!(range, Range::Original(_)), range.clone().unwrap());
    let ours = library::convert_offsets(&Note::from(note), of_original, asked.start as u32, asked.end as u32);
    code_answers(tally, &input, Offsets::of(said.clone().map(|range| (range.start, range.end))), ours);
    code_answers(tally, &input, said, note.convert_offsets(range));
}

/// A note with any alignments.
fn note_of(original: &str, normalized: &str, alignments: &[Pair]) -> NormalizedString {
    NormalizedString::of_fields(original.into(), normalized.into(), alignments.to_vec(), 0)
}

/// Where this library cuts the cleaned text, or its refusal.
fn split_here(note: &Note, list: &[u8], behavior: SplitDelimiterBehavior, drop_empty: bool) -> Result<Vec<Pair>, u32> {
    let [mut starts, mut ends, mut lengths] = [(); 3].map(|()| vec![0; 100]);
    let [mut alignment_starts, mut alignment_ends] = [(); 2].map(|()| vec![0; 100]);
    let out = Cutting {
        starts: &mut starts,
        ends: &mut ends,
        shifts: &mut [0; 100],
        lengths: &mut lengths,
        alignment_starts: &mut alignment_starts,
        alignment_ends: &mut alignment_ends,
    };
    let answer = library::split(note, list, split::number(behavior), drop_empty, out);
    if answer.refusal > 0 {
        return Err(answer.refusal);
    }
    let places = starts.into_iter().zip(ends).take(answer.len);
    Ok(places.map(|(start, end)| (position(start), position(end))).collect())
}

/// The split offsets that this library answers, or its refusal.
fn splits_here(note: &Note, list: &[u8], behavior: SplitDelimiterBehavior, way: [bool; 2]) -> Result<Vec<Pair>, u32> {
    let (mut starts, mut ends) = ([0; 100], [0; 100]);
    let answer = library::get_splits(note, list, split::number(behavior), way, &mut starts, &mut ends);
    if answer.refusal > 0 {
        return Err(answer.refusal);
    }
    let offsets = starts.into_iter().zip(ends).take(answer.len);
    Ok(offsets.map(|(start, end)| (start as usize, end as usize)).collect())
}

fn lengths(tally: &mut Tally) {
    tally.family("NormalizedString::len and len_original count bytes, not chars");
    for (text, bytes) in [("é", 2), ("a", 1), ("aé漢😀", 10)] {
        let note = NormalizedString::from(text);
        code_answers(tally, text, bytes, note.len());
        code_answers(tally, text, bytes, note.len_original());
    }
    let mut shorter = NormalizedString::from("é漢");
    shorter.filter(|c| c == '漢');
    code_answers(tally, "é漢 without é", (3, 5), (shorter.len(), shorter.len_original()));
}

fn lengths_of_ranges(tally: &mut Tally) {
    tally.family("Range::len subtracts and adds without a check");
    code_answers(tally, "5..3", true, panics(|| Range::Original(ops::Range { start: 5, end: 3 }).len()));
    code_answers(tally, "0..=MAX", true, panics(|| Range::Original(0..=usize::MAX).len()));

    tally.family("Range::len takes an open start for 0");
    code_answers(tally, "..5", Some(5), Range::Original(..5).len());
    code_answers(tally, "5..", None, Range::Original(5..).len());
}

/// The function takes what it is given as `max_len`; `convert_offsets` gives it a length in bytes.
fn full_range(tally: &mut Tally) {
    tally.family("Range::into_full_range is given lengths in bytes, not in chars");
    let note = NormalizedString::from("é");
    code_answers(tally, "é, ..", 0..2, Range::Normalized(..).into_full_range(note.len()));
    code_answers(tally, "é, ..", 0..2, Range::Original(..).into_full_range(note.len_original()));
    code_answers(tally, "é, ..", Some(0..2), note.convert_offsets(Range::Normalized(..)));
    code_answers(tally, "é, ..", Some(0..2), note.convert_offsets(Range::Original(..)));

    tally.family("Range::into_full_range cuts nothing to max_len, can turn a range round, and overflows");
    code_answers(tally, "0..99 of 2", 0..99, Range::Original(0..99).into_full_range(2));
    code_answers(tally, "5.. of 2", ops::Range { start: 5, end: 2 }, Range::Original(5..).into_full_range(2));
    code_answers(tally, "é, 5..", None, note.convert_offsets(Range::Original(5..)));
    converts(tally, &note, Range::Original(5..9), Some(2..2));
    code_answers(tally, "..=MAX", true, panics(|| Range::Original(..=usize::MAX).into_full_range(2)));
    code_answers(tally, "é, ..=MAX", true, panics(|| note.convert_offsets(Range::Original(..=usize::MAX))));
}

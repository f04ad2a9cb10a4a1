//! Results carried on: what a call left is passed to the next one, on both sides, through edits, slices, replacements
//! and pieces.

use super::edit::{check, Edit};
use super::long::EVERY;
use super::lowercase::once_more;
use crate::blanking;
use crate::convert::{self, CONVERT_OFFSETS, GET_RANGE, GET_RANGE_ORIGINAL};
use crate::find;
use crate::library;
use crate::made;
use crate::note::Note;
use crate::places::{self, Given};
use crate::random::Random;
use crate::ranges::Sample;
use crate::redact_all;
use crate::redact_note::{self, literal_of};
use crate::refusals::{EXHAUSTED, MISSING, NO_ROOM};
use crate::replace::{self, ample_or_none, Call};
use crate::replace_by_edits;
use crate::samples::{self, FILLERS};
use crate::slice;
use crate::split;
use crate::splits;
use crate::tally::{self, Tally};
use crate::texts::{self, Kind, LIMIT};
use tokenizers::normalizer::{Range, SplitDelimiterBehavior};
use tokenizers::NormalizedString;

pub fn compare(tally: &mut Tally) {
    tally.family("what a call left, passed to the next: chains of up to 40 edits, slices, replacements and pieces");
    let mut random = Random::new(95);
    for turn in 0..3_000 {
        let len = random.below([12, 60, 300, 2_000][turn % 4]);
        chain(tally, len, 40, &mut random);
    }
    tally.family("the same with notes up to the limit, chains of up to 10");
    for turn in 0..40 {
        let len = samples::long_len(turn, 4, &mut random);
        chain(tally, len, 10, &mut random);
    }
    after_clear(tally);
}

/// Both sides from one starting note. A note that either side refuses stays as it was on both.
fn chain(tally: &mut Tally, len: usize, most: usize, random: &mut Random) {
    let mut theirs = NormalizedString::from(texts::text(*random.choose(&texts::KINDS), len, random));
    let mut ours = Note::from(&theirs);
    let mut done: Vec<String> = vec![];
    for _ in 0..1 + random.below(most) {
        let (step, one, other) = step(&ours, &theirs, random);
        done.push(step);
        let refusal = *one.as_ref().err().unwrap_or(&0);
        let differs = match (&one, &other) {
            (Ok(one), Ok(other)) => !same(one, &Note::from(other)),
            (Err(one), Err(other)) => one != other,
            _ => true,
        };
        tally.case(tally::refusal(refusal), differs, || {
            format!("ours {:?}, theirs {:?}, after {done:?}, on {ours}", one.as_ref().err(), other.as_ref().err())
        });
        let (Ok(one), Ok(other)) = (one, other) else { continue };
        if differs || other.original_shift() + other.len_original() > LIMIT {
            return;
        }
        (ours, theirs) = (one, other);
    }
}

fn same(one: &Note, other: &Note) -> bool {
    one.original == other.original
        && one.normalized == other.normalized
        && one.starts == other.starts
        && one.ends == other.ends
        && one.original_shift == other.original_shift
        && library::check_note(one) == one.refusal()
}

type Step = (String, Result<Note, u32>, Result<NormalizedString, u32>);

/// A call in words, and what both sides make of it.
fn step(ours: &Note, theirs: &NormalizedString, random: &mut Random) -> Step {
    match random.below(10) {
        0 => slice(ours, theirs, random),
        1 => replace(ours, theirs, random),
        2 => piece(ours, theirs, random),
        _ => edit(ours, theirs, EVERY[random.below(EVERY.len())](theirs, random)),
    }
}

fn edit(ours: &Note, theirs: &NormalizedString, edit: Edit) -> Step {
    let (answer, left) = edit.answer(ours, LIMIT);
    let one = if answer.refusal == 0 { Ok(left) } else { Err(answer.refusal) };
    let mut other = theirs.clone();
    let other = edit.edit(&mut other).map(|_| other);
    (format!("{edit:?}"), one, other)
}

fn slice(ours: &Note, theirs: &NormalizedString, random: &mut Random) -> Step {
    let of_original = random.below(2) == 0;
    let text = if of_original { theirs.get_original() } else { theirs.get() };
    let mut ends = [texts::any_boundary(text, random), texts::any_boundary(text, random)];
    if random.below(3) > 0 {
        ends = [ends[0].min(text.len() / 3), ends[1].max(text.len() - text.len() / 3)];
        ends = ends.map(|end| texts::boundary_before(text, end));
    }
    let range = ends[0].min(ends[1])..ends[0].max(ends[1]);
    let range = if of_original { Range::Original(range) } else { Range::Normalized(range) };
    let other = theirs.slice(range.clone()).ok_or(MISSING);
    (format!("slice {range:?}"), made::sliced(ours, range), other)
}

fn replace(ours: &Note, theirs: &NormalizedString, random: &mut Random) -> Step {
    let cuts = random.below(9);
    let places = places::any(theirs.get(), cuts, random);
    let filler: String = (0..random.below(4)).map(|_| texts::any_scalar(random)).collect();
    let mut other = theirs.clone();
    other.replace(Given(places.clone()), &filler).expect("the places are given");
    let other = if other.len() > LIMIT { Err(NO_ROOM) } else { Ok(other) };
    (format!("replace {places:?} by {filler:?}"), made::replaced(ours, &places, &filler), other)
}

/// One of the pieces.
fn piece(ours: &Note, theirs: &NormalizedString, random: &mut Random) -> Step {
    use SplitDelimiterBehavior::{Contiguous, Isolated, MergedWithNext, MergedWithPrevious, Removed};
    let places = places::any(theirs.get(), 3, random);
    let behavior = *random.choose(&[Removed, Isolated, MergedWithPrevious, MergedWithNext, Contiguous]);
    let pieces = theirs.split(Given(places.clone()), behavior).expect("the places are given");
    let mine = made::pieces(ours, &places::bytes(&places), split::number(behavior));
    let words = format!("split {places:?} {behavior:?}");
    let mine = match mine {
        Ok(mine) if mine.len() == pieces.len() && !mine.is_empty() => mine,
        Ok(mine) if mine.is_empty() && pieces.is_empty() => return (words, Err(MISSING), Err(MISSING)),
        Ok(_) => return (words, Err(0), Ok(theirs.clone())),
        Err(refusal) => return (words, Err(refusal), Ok(theirs.clone())),
    };
    let at = random.below(pieces.len());
    (words, Ok(mine[at].clone()), Ok(pieces[at].clone()))
}

/// What is left after `clear` takes every edit again.
fn after_clear(tally: &mut Tally) {
    tally.family("what clear, and filter that keeps nothing, leave, passed to every call");
    let mut random = Random::new(96);
    for turn in 0..1_500 {
        let len = random.below([6, 60, 300][turn % 3]);
        let note = Note::from(&samples::any(len, &mut random));
        let characters = std::str::from_utf8(&note.normalized).expect("a sound note").chars().count();
        for emptied in [Edit::Clear, Edit::Filter(vec![0; characters])] {
            let (answer, left) = emptied.answer(&note, LIMIT);
            tally.case(tally::refusal(answer.refusal), answer.refusal != 0, || format!("{answer:?} on {note}"));
            let theirs = left.of_the_original();
            for any in EVERY {
                check(tally, &left, &any(&theirs, &mut random), ample_or_none);
            }
        }
    }
}

pub fn after_lowercase(tally: &mut Tally) {
    tally.family("what lowercase leaves stays as it is under lowercase once more: text and alignments");
    let mut random = Random::new(100);
    for turn in 0..4_000 {
        let len = random.below([9, 60, 300, 9_000][turn % 4]);
        if let Some((_, left)) = lowercased(tally, len, &mut random) {
            once_more(tally, &left);
        }
    }
    tally.family("what lowercase leaves, passed to every other call on a note and to find_matches");
    for turn in 0..700 {
        let len = random.below([9, 60, 300][turn % 3]);
        if let Some((note, left)) = lowercased(tally, len, &mut random) {
            passed_on(tally, [&note, &left], turn, &mut random);
        }
    }
}

/// A note of letters and what `lowercase` leaves of it, where it has no head.
fn lowercased(tally: &mut Tally, len: usize, random: &mut Random) -> Option<(Note, Note)> {
    let note = Note::from(&samples::lettered(texts::text(Kind::Letters, len, random), random));
    let (answer, left) = Edit::Lowercase.answer(&note, LIMIT);
    let head = note.alignments().next().is_some_and(|(start, end)| start == end);
    let said = if head { EXHAUSTED } else { 0 };
    tally.case(tally::refusal(answer.refusal), answer.refusal != said, || format!("{answer:?} on {note}"));
    (answer.refusal == 0).then_some((note, left))
}

fn passed_on(tally: &mut Tally, [note, left]: [&Note; 2], turn: usize, random: &mut Random) {
    let theirs = left.of_the_original();
    for any in EVERY {
        check(tally, left, &any(&theirs, random), ample_or_none);
    }
    let (sample, text) = (Sample::from(left.clone()), theirs.get());
    for call in [CONVERT_OFFSETS, GET_RANGE, GET_RANGE_ORIGINAL] {
        convert::convert_any_ranges(tally, &call, &sample, 9, random);
    }
    convert::convert_any_list(tally, &sample, 20, random);
    slice::slice_any_ranges(tally, &sample, 9, random);
    let (literal, filler) = (literal_of(text, random), *random.choose(&FILLERS));
    let places = places::any(text, 5, random);
    let list = places::bytes(&places);
    let calls: [Call; 2] = [replace::replace, replace_by_edits::replace_by_edits];
    for call in calls {
        replace::plainly(tally, call, left, &places, filler, ample_or_none);
    }
    split::by_turns(tally, &sample, &list, turn, &|| "lowercased".into());
    splits::by_turns(tally, &sample, &list, turn, |len| vec![(len, len)]);
    redact_note::plainly(tally, left, &literal, filler, redact_note::ample_or_none);
    redact_all::plainly(tally, left, &[[&literal, filler]], redact_all::ample_or_none);
    for one in [note, left] {
        let wanted = blanking::expected(one, left, &list, filler.as_bytes());
        blanking::compare_notes(tally, [one, left], &list, filler.as_bytes(), wanted);
    }
    find::find(tally, text.as_bytes(), literal.as_bytes(), |len| vec![len]);
}

//! What the comments of edits say.

use super::{code_answers, note_of, panics};
use crate::edits::{bytes, Change, Edit};
use crate::library;
use crate::note::Note;
use crate::refusals::{EXHAUSTED, MISALIGNED, NOT_BOUNDARY, NO_ROOM};
use crate::tally::Tally;
use crate::texts::LIMIT;
use tokenizers::normalizer::Range::{Normalized, Original};
use tokenizers::{NormalizedString, Offsets};

pub fn compare(tally: &mut Tally) {
    longer_than_the_limit(tally);
    no_character_left(tally);
    ranges_that_cannot_be_edited(tally);
    ranges_without_an_answer(tally);
    characters_that_no_command_reached(tally);
    numbers_of_a_change(tally);
    initial_offset(tally);
    alignment_of_an_added_character(tally);
    characters_of_the_cleaned_text(tally);
    whole_note(tally);
    whole_note_of_an_empty_transcript(tally);
    prepending(tally);
    clearing(tally);
    final_sigma(tally);
    letters_above_the_table(tally);
    stripping(tally);
}

fn fresh(text: &str) -> NormalizedString {
    NormalizedString::from(text)
}

/// With the first character before the whole transcript's range.
fn moved(text: &str) -> NormalizedString {
    let mut note = fresh(text);
    note.prepend("");
    note
}

/// Text and alignments.
type Left<'a> = (&'a str, &'a [Offsets]);

/// What is said to be left, by the Rust and, where it does not refuse, by this library.
fn leaves(
    tally: &mut Tally,
    note: &NormalizedString,
    edit: impl FnOnce(&mut NormalizedString),
    (here, refusal): (&Edit, u32),
    said: Left,
) {
    let mut theirs = note.clone();
    edit(&mut theirs);
    let input = format!("{here:?} on {note:?}");
    code_answers(tally, &input, said, (theirs.get(), theirs.alignments()));
    refuses(tally, note, here, refusal);
    if refusal == 0 {
        let left = here.answer(&Note::from(note), LIMIT).1.of_the_original();
        code_answers(tally, &input, said, (left.get(), left.alignments()));
    }
}

/// This library's refusal.
fn refuses(tally: &mut Tally, note: &NormalizedString, edit: &Edit, refusal: u32) {
    let answer = edit.answer(&Note::from(note), LIMIT).0;
    code_answers(tally, &format!("{edit:?} on {note:?}"), refusal, answer.refusal);
}

/// Of the cleaned text.
fn ranged(start: u32, end: u32, changes: &[Change], offset: u32) -> Edit {
    Edit::TransformRange((false, start, end), bytes(changes), offset)
}

/// `transform_range` of a cleaned range.
fn transforms(tally: &mut Tally, text: &str, (start, end): (u32, u32), changes: &[Change], offset: u32, said: Left) {
    leaves(
        tally,
        &fresh(text),
        |note| {
            let range = Normalized(start as usize..end as usize);
            note.transform_range(range, changes.iter().copied(), offset as usize);
        },
        (&ranged(start, end, changes, offset), 0),
        said,
    );
}

fn longer_than_the_limit(tally: &mut Tally) {
    tally.family("a string that makes the cleaned text longer than the limit is taken; here it is 9");
    let string = "x".repeat(LIMIT);
    let (mut after, mut before) = (fresh("a"), fresh("a"));
    let lens = [after.append(&string).len(), before.prepend(&string).len()];
    code_answers(tally, "a and as many x as the limit", [LIMIT + 1; 2], lens);
    refuses(tally, &fresh("a"), &Edit::Append(string.clone().into()), NO_ROOM);
    refuses(tally, &fresh("a"), &Edit::Prepend(string.into()), NO_ROOM);

    tally.family("21846 times U+0130 is longer than the limit in small letters, and is taken; here it is 9");
    for (times, refusal) in [(21_845, 0), (21_846, NO_ROOM)] {
        let note = fresh(&"İ".repeat(times));
        code_answers(tally, "U+0130", 3 * times, note.clone().lowercase().len());
        refuses(tally, &note, &Edit::Lowercase, refusal);
    }
}

fn no_character_left(tally: &mut Tally) {
    tally.family("where no character is left to replace, the Rust panics or reads on past its range; here it is 7");
    let three: [Change; 3] = [('x', 0), ('y', 0), ('z', 0)];
    code_answers(tally, "ab, three", true, panics(|| fresh("ab").transform_range(Normalized(0..2), three, 0)));
    refuses(tally, &fresh("ab"), &ranged(0, 2, &three, 0), EXHAUSTED);
    let after: [Change; 3] = [('x', 0), ('y', 0), ('z', 1)];
    let said: Left = ("xyzb", &[(0, 1), (1, 2), (0, 1), (1, 2)]);
    let edit = |note: &mut NormalizedString| note.transform_range(Normalized(0..1), after, 0);
    leaves(tally, &fresh("ab"), edit, (&ranged(0, 1, &after, 0), EXHAUSTED), said);
    let back = note_of("ab", said.0, said.1);
    let left = Note::from(&back);
    code_answers(tally, "xyzb", [MISALIGNED; 2], [left.refusal(), library::check_note(&left)]);
    code_answers(tally, "xyzb, cleaned 1..3", true, panics(|| back.slice(Normalized(1..3))));
    code_answers(tally, "map", true, panics(|| moved("ab").map(|c| c).get().to_owned()));
    refuses(tally, &moved("ab"), &Edit::Map(vec!['a'.into(), 'b'.into()]), EXHAUSTED);
    code_answers(tally, "filter", true, panics(|| moved("ab").filter(|_| true).get().to_owned()));
    refuses(tally, &moved("ab"), &Edit::Filter(vec![1; 2]), EXHAUSTED);
    code_answers(tally, "lowercase", true, panics(|| moved("ab").lowercase().get().to_owned()));
    refuses(tally, &moved("ab"), &Edit::Lowercase, EXHAUSTED);
    code_answers(tally, "uppercase", true, panics(|| moved("ab").uppercase().get().to_owned()));
}

fn ranges_that_cannot_be_edited(tally: &mut Tally) {
    tally.family("a cleaned range that is reversed, passes the text's end or cuts a character panics; here it is 5");
    for (start, end) in [(0, 2), (0, 9), (9, 9), (3, 1)] {
        let range = Normalized(start as usize..end as usize);
        code_answers(tally, "aé", true, panics(|| fresh("aé").transform_range(range, [], 0)));
        refuses(tally, &fresh("aé"), &ranged(start, end, &[], 0), NOT_BOUNDARY);
    }
    code_answers(tally, "aé, 9..9", true, panics(|| fresh("aé").transform_range(Original(9..9), [], 0)));
    refuses(tally, &fresh("aé"), &Edit::TransformRange((true, 9, 9), vec![], 0), NOT_BOUNDARY);
}

fn ranges_without_an_answer(tally: &mut Tally) {
    tally
        .family("a transcript range that converts to nothing, and a reversed one, are not edited, and nothing says so");
    let added: [Change; 1] = [('x', 1)];
    let mut cleared = fresh("ab");
    cleared.clear();
    let edit = |note: &mut NormalizedString| note.transform(added, 0);
    leaves(tally, &cleared, edit, (&Edit::Transform(bytes(&added), 0), 0), ("", &[]));
    for (start, end) in [(2, 1), (0, 1)] {
        let edit = |note: &mut NormalizedString| note.transform_range(Original(start..end), added, 0);
        let here = Edit::TransformRange((true, start as u32, end as u32), bytes(&added), 0);
        leaves(tally, &fresh("é"), edit, (&here, 0), ("é", &[(0, 2), (0, 2)]));
    }
    let edit = |note: &mut NormalizedString| note.transform_range(Original(1..1), added, 0);
    let here = Edit::TransformRange((true, 1, 1), bytes(&added), 0);
    let mut longer = fresh("ab");
    longer.prepend("12");
    leaves(tally, &longer, edit, (&here, 0), ("1x2ab", &[(0, 1), (0, 1), (0, 1), (0, 1), (1, 2)]));
}

fn characters_that_no_command_reached(tally: &mut Tally) {
    tally.family("characters of the range that no command reached are gone, without a removal; the others stay");
    transforms(tally, "abc", (0, 3), &[('x', 0)], 0, ("x", &[(0, 1)]));
    transforms(tally, "abc", (0, 2), &[('x', 0)], 0, ("xc", &[(0, 1), (2, 3)]));
    let one: [Change; 1] = [('x', 0)];
    let edit = |note: &mut NormalizedString| note.transform(one, 0);
    leaves(tally, &moved("ab"), edit, (&Edit::Transform(bytes(&one), 0), 0), ("ax", &[(0, 0), (1, 2)]));
}

fn numbers_of_a_change(tally: &mut Tally) {
    tally.family("any change above 0 adds one character; a removal ends with the range; isize::MIN panics");
    let mut five = fresh("ab");
    five.transform_range(Normalized(1..1), [('x', 5)], 0);
    code_answers(tally, "ab, 5", ("axb", &[(0, 1), (0, 1), (1, 2)][..]), (five.get(), five.alignments()));
    transforms(tally, "abc", (0, 2), &[('x', -9)], 0, ("xc", &[(0, 1), (2, 3)]));
    let least: [Change; 1] = [('x', isize::MIN)];
    code_answers(tally, "ab, MIN", true, panics(|| fresh("ab").transform_range(Normalized(0..2), least, 0)));
}

fn initial_offset(tally: &mut Tally) {
    tally.family("the initial offset counts characters of the cleaned range, not of the original, and at most all");
    let mut shorter = fresh("abc");
    shorter.filter(|c| c != 'a');
    let one: [Change; 1] = [('x', 0)];
    let edit = |note: &mut NormalizedString| note.transform(one, 1);
    leaves(tally, &shorter, edit, (&Edit::Transform(bytes(&one), 1), 0), ("x", &[(2, 3)]));
    transforms(tally, "abc", (1, 3), &one, 1, ("ax", &[(0, 1), (2, 3)]));
    transforms(tally, "abc", (0, 2), &[], 9, ("c", &[(2, 3)]));
}

fn alignment_of_an_added_character(tally: &mut Tally) {
    tally.family("an added character has the alignment of the old text's character before it, also a removed one");
    transforms(tally, "abc", (0, 3), &[('x', -1), ('y', 1)], 0, ("xy", &[(0, 1), (1, 2)]));
    transforms(tally, "abc", (0, 3), &[('y', 1)], 2, ("y", &[(1, 2)]));

    tally.family("an added character at position 0 has none before it: it has (0,0)");
    transforms(tally, "ab", (0, 0), &[('y', 1)], 0, ("yab", &[(0, 0), (0, 1), (1, 2)]));
    let mut shorter = fresh("abc");
    shorter.filter(|c| c != 'a');
    let one: [Change; 1] = [('y', 1)];
    let edit = |note: &mut NormalizedString| note.transform_range(Normalized(0..0), one, 0);
    leaves(tally, &shorter, edit, (&ranged(0, 0, &one, 0), 0), ("ybc", &[(0, 0), (1, 2), (2, 3)]));
}

/// Were they the transcript's, the position would pass the text's end.
fn characters_of_the_cleaned_text(tally: &mut Tally) {
    tally.family("the characters that transform_range retrieves are the cleaned text's, not the original's");
    let two: [Change; 2] = [('x', 0), ('y', 0)];
    let edit = |note: &mut NormalizedString| note.transform_range(Normalized(0..2), two, 0);
    let note = note_of("漢", "ab", &[(0, 3), (0, 3)]);
    leaves(tally, &note, edit, (&ranged(0, 2, &two, 0), 0), ("xy", &[(0, 3), (0, 3)]));
}

fn whole_note(tally: &mut Tally) {
    tally.family("filter goes over the whole transcript's range, and leaves what is before it");
    let edit = |note: &mut NormalizedString| _ = note.filter(|c| c == 'a');
    leaves(tally, &moved("ab"), edit, (&Edit::Filter(vec![1, 0]), 0), ("aa", &[(0, 0), (1, 2)]));
    let edit = |note: &mut NormalizedString| _ = note.filter(|_| false);
    leaves(tally, &moved("ab"), edit, (&Edit::Filter(vec![0, 0]), 0), ("a", &[(0, 0)]));
}

/// The whole transcript's range is then 0..0, before everything.
fn whole_note_of_an_empty_transcript(tally: &mut Tally) {
    tally.family("on a text that was appended to an empty one, map and filter that change nothing double it; here 7");
    let mut appended = fresh("");
    appended.append("xy");
    let doubled: Left = ("xyxy", &[(0, 0); 4]);
    let edit = |note: &mut NormalizedString| _ = note.map(|c| c);
    leaves(tally, &appended, edit, (&Edit::Map(vec!['x'.into(), 'y'.into()]), EXHAUSTED), doubled);
    let edit = |note: &mut NormalizedString| _ = note.filter(|_| true);
    leaves(tally, &appended, edit, (&Edit::Filter(vec![1; 2]), EXHAUSTED), doubled);
    let edit = |note: &mut NormalizedString| _ = note.filter(|_| false);
    leaves(tally, &appended, edit, (&Edit::Filter(vec![0; 2]), 0), ("xy", &[(0, 0); 2]));
    leaves(tally, &appended, |note| _ = note.clear(), (&Edit::Clear, 0), ("xy", &[(0, 0); 2]));

    tally.family("on a text that was appended to an empty one, lowercase puts the new text before it; here 7");
    let mut appended = fresh("");
    appended.append("A");
    let edit = |note: &mut NormalizedString| _ = note.lowercase();
    leaves(tally, &appended, edit, (&Edit::Lowercase, EXHAUSTED), ("aA", &[(0, 0); 2]));
}

fn prepending(tally: &mut Tally) {
    tally.family("prepend leaves an empty text empty, and an empty string moves the first character");
    let edit = |note: &mut NormalizedString| _ = note.prepend("x");
    leaves(tally, &fresh(""), edit, (&Edit::Prepend(b"x".into()), 0), ("", &[]));
    let edit = |note: &mut NormalizedString| _ = note.append("x");
    leaves(tally, &fresh(""), edit, (&Edit::Append(b"x".into()), 0), ("x", &[(0, 0)]));
    let edit = |note: &mut NormalizedString| _ = note.prepend("");
    leaves(tally, &fresh("aé"), edit, (&Edit::Prepend(vec![]), 0), ("aé", &[(0, 0), (1, 3), (1, 3)]));
}

fn clearing(tally: &mut Tally) {
    tally.family("clear leaves what is before the first alignment that is not empty");
    let note = moved("aé");
    code_answers(tally, "clear answers", [3, 3], [note.clone().clear(), cleared(&note)]);
    leaves(tally, &note, |note| _ = note.clear(), (&Edit::Clear, 0), ("a", &[(0, 0)]));

    tally.family("clear passes bytes as the number of characters to skip, and nothing comes of it");
    code_answers(tally, "clear answers", [2, 2], [fresh("é").clear(), cleared(&fresh("é"))]);
    leaves(tally, &fresh("é"), |note| _ = note.clear(), (&Edit::Clear, 0), ("", &[]));
    for skipped in [2, 1, 0] {
        let edit = |note: &mut NormalizedString| note.transform([], skipped as usize);
        leaves(tally, &fresh("é"), edit, (&Edit::Transform(vec![], skipped), 0), ("", &[]));
    }
}

fn cleared(note: &NormalizedString) -> usize {
    Edit::Clear.answer(&Note::from(note), LIMIT).0.before_len
}

/// The Standard's table of special cases has a sigma at a word's end of its own; `core::str` keeps to it.
fn final_sigma(tally: &mut Tally) {
    tally.family("lowercase goes character by character: a sigma at a word's end is not the Standard's; here it stays");
    lowercased_there(tally, "ΟΔΟΣ", "οδοσ");
    code_answers(tally, "ΟΔΟΣ", "οδος", &*"ΟΔΟΣ".to_lowercase());
}

fn letters_above_the_table(tally: &mut Tally) {
    tally.family("lowercase changes letters above U+017F too; here they stay");
    for (letter, there) in
        [("\u{181}", "\u{253}"), ("\u{391}", "\u{3B1}"), ("\u{1E9E}", "ß"), ("\u{212A}", "k"), ("\u{212B}", "å")]
    {
        lowercased_there(tally, letter, there);
    }
}

/// What the Rust makes of a text that this library leaves as it is.
fn lowercased_there(tally: &mut Tally, text: &str, there: &str) {
    let mut note = fresh(text);
    let (answer, left) = Edit::Lowercase.answer(&Note::from(&note), LIMIT);
    let left = left.of_the_original();
    let said = (0, note.get(), note.alignments());
    code_answers(tally, text, said, (answer.refusal, left.get(), left.alignments()));
    code_answers(tally, text, there, note.lowercase().get());
}

fn stripping(tally: &mut Tally) {
    tally.family("strip removes all white space, and goes over the whole transcript's range");
    let mut note = fresh("\n\u{3000}a b\t");
    note.strip();
    code_answers(tally, "white space", "a b", note.get());
    code_answers(tally, "lstrip", true, panics(|| moved(" a").lstrip().get().to_owned()));
    let mut note = moved(" a ");
    note.rstrip();
    code_answers(tally, "rstrip", ("  a", &[(0, 0), (1, 2), (2, 3)][..]), (note.get(), note.alignments()));

    tally.family("rstrip compares characters with bytes, and nothing comes of it");
    let mut note = fresh("é ");
    note.rstrip();
    code_answers(tally, "é and a space", ("é", &[(0, 2), (0, 2)][..]), (note.get(), note.alignments()));
}

//! Every edit of some kind on every short note.

use super::edit::{bytes, check_sound, starves, Change, Edit};
use super::lowercase::images;
use crate::every;
use crate::note::{Note, Offset};
use crate::refusals::{EXHAUSTED, NOT_BOUNDARY};
use crate::replace::Rooms;
use crate::samples::sound_notes;
use crate::tally::Tally;
use std::panic::{self, AssertUnwindSafe};
use tokenizers::normalizer::Range;
use tokenizers::NormalizedString;

const STRINGS: [&str; 8] = ["", "x", "é", "漢", "😀", "xé", "日x", "xyz"];

/// Every sound note of up to two characters on transcripts of up to two, and some of three.
fn notes() -> Vec<Note> {
    let mut notes = vec![];
    for original in ["", "a", "é", "ab"] {
        for normalized in every::strings(2) {
            notes.extend(sound_notes(original, &normalized));
        }
    }
    notes.extend(longer_notes());
    notes
}

fn longer_notes() -> Vec<Note> {
    [("a", "aéb"), ("é", "abé"), ("ab", "éab"), ("aé", "b漢")]
        .iter()
        .flat_map(|texts| sound_notes(texts.0, texts.1))
        .collect()
}

fn fresh(text: &str) -> Note {
    Note::from(&NormalizedString::from(text))
}

/// In a room that is just large enough, in larger ones, and in one that is short in one buffer.
fn enough_or_short(len: usize) -> Rooms {
    let short = (len > 0).then(|| [len, len - 1, len]);
    [Some([len, len + 1, len + 2]), short].into_iter().flatten().collect()
}

/// Just large enough, or larger.
fn enough(len: usize) -> Rooms {
    vec![[len, len + 1, len + 2]]
}

/// Every script of so many commands with these characters, and removals of 1 and 2.
fn scripts(len: usize, characters: &[char]) -> Vec<Vec<Change>> {
    let changes: Vec<Change> =
        characters.iter().flat_map(|&character| [0, 1, -1, -2].map(|change| (character, change))).collect();
    every::list(&changes, len).collect()
}

/// The text and alignments that an edit leaves, or the refusal.
type Said<'a> = Result<(&'a str, &'a [(Offset, Offset)]), u32>;

/// An edit whose answer is written down: both sides give it.
fn gives(tally: &mut Tally, note: &Note, edit: &Edit, said: Said) {
    check_sound(tally, note, edit, enough_or_short);
    let made = edit.made(note).map(|made| made.note);
    let same = match (&made, said) {
        (Ok(note), Ok((text, alignments))) => {
            note.normalized == text.as_bytes() && note.alignments().eq(alignments.iter().copied())
        }
        (Err(refusal), Err(said)) => *refusal == said,
        _ => false,
    };
    tally.case("accepted", !same, || format!("{edit:?}: said {said:?}"));
}

/// Of the starting note of `aéb`: range, script, offset, and what it leaves.
type Worked<'a> = ((bool, u32, u32), &'a [Change], u32, Said<'a>);

/// The table of docs/RULES.md, 7.
fn worked_edits(tally: &mut Tally) {
    tally.family("worked edits");
    let (a, e, b) = ((0, 1), (1, 3), (3, 4));
    let worked: [Worked; 10] = [
        ((false, 1, 3), &[('e', 0)], 0, Ok(("aeb", &[a, e, b]))),
        ((false, 0, 4), &[('x', -1), ('y', 1), ('z', 0)], 0, Ok(("xyz", &[a, e, b]))),
        ((false, 0, 4), &[('x', 0)], 0, Ok(("x", &[a]))),
        ((false, 0, 4), &[('x', 0)], 1, Ok(("x", &[e]))),
        ((false, 0, 0), &[('x', 1)], 0, Ok(("xaéb", &[(0, 0), a, e, e, b]))),
        ((false, 0, 1), &[('x', 0), ('y', 0)], 0, Err(EXHAUSTED)),
        ((false, 0, 2), &[], 0, Err(NOT_BOUNDARY)),
        ((true, 1, 3), &[], 0, Ok(("ab", &[a, b]))),
        ((true, 1, 2), &[('x', 1)], 0, Ok(("axéb", &[a, a, e, e, b]))),
        ((true, 3, 1), &[('x', 1)], 0, Ok(("aéb", &[a, e, e, b]))),
    ];
    let note = fresh("aéb");
    for (range, changes, offset, said) in worked {
        gives(tally, &note, &Edit::TransformRange(range, bytes(changes), offset), said);
    }
}

pub fn every_range(tally: &mut Tally) {
    worked_edits(tally);
    tally.family("every script of up to 2 commands, every range and offset, on every short sound note");
    for note in notes() {
        for len in 0..=2 {
            ranges(tally, &note, &scripts(len, &['x', 'é']), 0..note.normalized.len() + 2, enough_or_short);
        }
    }
    tally.family("every script of 3 commands, every range and offset, on every short sound note");
    for note in notes() {
        ranges(tally, &note, &scripts(3, &['x', 'é']), 0..3, enough);
    }
    tally.family("every script of 4 commands, every range, on starting notes of up to 3 characters");
    for text in every::strings(3) {
        ranges(tally, &fresh(&text), &scripts(4, &['é']), 0..2, enough);
    }
    judged_by_the_rust(tally);
}

/// Every range of either text, up to two bytes past both, in every room.
fn ranges(
    tally: &mut Tally,
    note: &Note,
    scripts: &[Vec<Change>],
    offsets: std::ops::Range<usize>,
    rooms: fn(usize) -> Rooms,
) {
    let last = note.original.len().max(note.normalized.len()) + 1;
    for script in scripts {
        let script = bytes(script);
        for (start, end) in every::pair(last) {
            for offset in offsets.clone() {
                for of_original in [false, true] {
                    let range = (of_original, start as u32, end as u32);
                    let edit = Edit::TransformRange(range, script.clone(), offset as u32);
                    check_sound(tally, note, &edit, rooms);
                }
            }
        }
    }
}

/// The Rust reads past its range where there is something: on the note cut at the range's end it panics instead.
fn judged_by_the_rust(tally: &mut Tally) {
    tally.family("7 exactly where the Rust panics on the note cut at the range's end: scripts of up to 3, all offsets");
    let hook = panic::take_hook();
    panic::set_hook(Box::new(|_| {}));
    for note in notes() {
        let theirs = note.of_the_original();
        let text = theirs.get();
        for end in (0..=text.len()).filter(|&end| text.is_char_boundary(end)) {
            let alignments = theirs.alignments()[..end].to_vec();
            let cut = NormalizedString::of_fields(theirs.get_original().into(), text[..end].into(), alignments, 0);
            for start in (0..=end).filter(|&start| text.is_char_boundary(start)) {
                for changes in (0..=3).flat_map(|len| scripts(len, &['é'])) {
                    for offset in 0..4 {
                        let mut cut = cut.clone();
                        let run = AssertUnwindSafe(|| {
                            cut.transform_range(Range::Normalized(start..end), changes.iter().copied(), offset);
                        });
                        let panicked = panic::catch_unwind(run).is_err();
                        let starved = starves(text[start..end].chars().count(), &changes, offset);
                        let range = (false, start as u32, end as u32);
                        let edit = Edit::TransformRange(range, bytes(&changes), offset as u32);
                        let ours = edit.answer(&note, 32).0.refusal;
                        let said = if starved { 7 } else { 0 };
                        tally.case(crate::tally::refusal(ours), panicked != starved || ours != said, || {
                            format!("ours {ours}, panics {panicked}, counted {starved}: {edit:?} on {note}")
                        });
                    }
                }
            }
        }
    }
    panic::set_hook(hook);
}

pub fn every_script(tally: &mut Tally) {
    tally.family("every script of up to 3 commands, every offset, on every short sound note");
    for note in notes() {
        for script in (0..=3).flat_map(|len| scripts(len, &['x', 'é'])) {
            for offset in 0..4 {
                check_sound(tally, &note, &Edit::Transform(bytes(&script), offset), enough_or_short);
            }
        }
    }
}

fn characters(note: &Note) -> usize {
    std::str::from_utf8(&note.normalized).expect("a sound note").chars().count()
}

/// As many as characters, one more and one fewer.
fn counts(note: &Note) -> std::ops::RangeInclusive<usize> {
    let count = characters(note);
    count.saturating_sub(1)..=count + 1
}

pub fn every_map(tally: &mut Tally) {
    tally.family("every list of code points out of 4, as many as characters, one more and one fewer");
    for note in notes() {
        for list in counts(&note).flat_map(|len| every::list(&['x', 'é', '日', '😀'], len)) {
            let codes = list.iter().map(|&character| character as u32).collect();
            check_sound(tally, &note, &Edit::Map(codes), enough_or_short);
        }
    }
}

/// The header's words: from the first byte whose alignment is not empty to the text's end.
fn whole_range(note: &Note) -> Option<std::ops::Range<usize>> {
    let len = note.normalized.len();
    match (note.original.len(), len) {
        (0, _) => Some(0..0),
        (_, 0) => None,
        _ => Some(note.alignments().position(|(start, end)| start < end).unwrap_or(len)..len),
    }
}

/// The header's words: what is kept takes the range's place, the i-th character with the alignment of the range's i-th.
fn filtered(note: &Note, flags: &[u8]) -> Option<Vec<(char, (Offset, Offset))>> {
    let text = std::str::from_utf8(&note.normalized).expect("a sound note");
    let alignments: Vec<(Offset, Offset)> = note.alignments().collect();
    let all: Vec<(usize, char)> = text.char_indices().collect();
    let Some(range) = whole_range(note) else { return Some(vec![]) };
    let outside = |part: &[(usize, char)]| part.iter().map(|&(at, c)| (c, alignments[at])).collect::<Vec<_>>();
    let (before, rest) = all.split_at(text[..range.start].chars().count());
    let (inside, after) = rest.split_at(text[range].chars().count());
    let mut left = outside(before);
    for (i, &(_, character)) in all.iter().enumerate().filter(|(i, _)| flags[*i] != 0) {
        left.push((character, alignments[inside.get(i)?.0]));
    }
    left.extend(outside(after));
    Some(left)
}

fn as_the_header_says(tally: &mut Tally) {
    tally.family("the whole range, and what filter leaves or 7, in the words of include/zulmyren.h");
    for note in notes() {
        let theirs = note.of_the_original().convert_offsets(Range::Original(0..note.original.len()));
        let said = whole_range(&note);
        tally.case("accepted", theirs != said, || format!("said {said:?}, theirs {theirs:?}, on {note}"));
        for flags in every::list(&[0, 1], characters(&note)) {
            let said = filtered(&note, &flags);
            let (answer, left) = Edit::Filter(flags.clone()).answer(&note, 32);
            let text = std::str::from_utf8(&left.normalized).expect("a sound note");
            let alignments: Vec<(Offset, Offset)> = left.alignments().collect();
            let made: Vec<(char, (Offset, Offset))> = text.char_indices().map(|(at, c)| (c, alignments[at])).collect();
            let same =
                if answer.refusal == 0 { said == Some(made) } else { answer.refusal == EXHAUSTED && said.is_none() };
            tally.case(crate::tally::refusal(answer.refusal), !same, || {
                format!("said {said:?}, ours {answer:?} with {left}, flags {flags:?} on {note}")
            });
        }
    }
}

pub fn every_filter(tally: &mut Tally) {
    as_the_header_says(tally);
    tally.family("every list of flags out of 0, 1, 128 and 255, as many as characters, one more and one fewer");
    for note in notes() {
        for flags in counts(&note).flat_map(|len| every::list(&[0, 1, 128, 255], len)) {
            check_sound(tally, &note, &Edit::Filter(flags), enough_or_short);
        }
    }
}

pub fn every_string(tally: &mut Tally, edit: fn(Vec<u8>) -> Edit) {
    tally.family("8 strings on every short sound note");
    for note in notes() {
        for string in STRINGS {
            check_sound(tally, &note, &edit(string.into()), enough_or_short);
        }
    }
}

pub fn every_clear(tally: &mut Tally) {
    tally.family("every short sound note");
    for note in notes() {
        check_sound(tally, &note, &Edit::Clear, enough_or_short);
    }
}

/// Every sound note of up to three of these: capitals of one byte and of two, U+0130, the dot that is added after it, and
/// the Kelvin sign, which only the Rust changes.
fn letter_notes() -> Vec<Note> {
    let texts = (0..=3).flat_map(|len| every::list(&['A', 'É', 'İ', '\u{307}', '\u{212A}'], len));
    let texts: Vec<String> = texts.map(String::from_iter).collect();
    let transcripts = ["", "a", "İ", "ab", "aİ", "abc"];
    transcripts.iter().flat_map(|original| texts.iter().flat_map(|text| sound_notes(original, text))).collect()
}

/// The table of docs/RULES.md, 8.8.
fn worked_letters(tally: &mut Tally) {
    tally.family("worked notes");
    let of = |original: &str, normalized: &str, alignments: &[(usize, usize)]| {
        Note::from(&NormalizedString::of_fields(original.into(), normalized.into(), alignments.into(), 0))
    };
    let mut moved = NormalizedString::from("AÉ");
    moved.prepend("");
    let dotted: Said = Ok(("i\u{307}a", &[(0, 2), (0, 2), (0, 2), (2, 3)]));
    let worked: [(Note, Said); 8] = [
        (fresh("AÉ漢"), Ok(("aé漢", &[(0, 1), (1, 3), (1, 3), (3, 6), (3, 6), (3, 6)]))),
        (fresh("İA"), dotted),
        (of("İA", "i\u{307}a", &[(0, 2), (0, 2), (0, 2), (2, 3)]), dotted),
        (of("ab", "İX", &[(0, 1), (0, 1), (1, 2)]), Ok(("i\u{307}x", &[(0, 1), (0, 1), (0, 1), (1, 2)]))),
        (fresh("\u{212A}É"), Ok(("\u{212A}é", &[(0, 3), (0, 3), (0, 3), (3, 5), (3, 5)]))),
        (Note::from(&moved), Err(EXHAUSTED)),
        (of("", "É", &[(0, 0), (0, 0)]), Err(EXHAUSTED)),
        (fresh(""), Ok(("", &[]))),
    ];
    for (note, said) in worked {
        gives(tally, &note, &Edit::Lowercase, said);
    }
}

/// The header's words: the images of each character, with its alignment; 7 where the first alignment is empty.
fn lowercased(note: &Note) -> Result<(String, Vec<(Offset, Offset)>), u32> {
    let text = std::str::from_utf8(&note.normalized).expect("a sound note");
    let alignments: Vec<(Offset, Offset)> = note.alignments().collect();
    if alignments.first().is_some_and(|(start, end)| start == end) {
        return Err(EXHAUSTED);
    }
    let left = text.char_indices().flat_map(|(at, c)| images(c).into_iter().map(move |image| (image, at)));
    let carried = |(image, at): (char, usize)| std::iter::repeat_n(alignments[at], image.len_utf8());
    Ok((left.clone().map(|(image, _)| image).collect(), left.flat_map(carried).collect()))
}

pub fn every_lowercase(tally: &mut Tally) {
    worked_letters(tally);
    tally.family(
        "every sound note of up to 3 characters out of A, É, U+0130, U+0307 and U+212A, and others that are short",
    );
    for note in letter_notes().into_iter().chain(notes()) {
        check_sound(tally, &note, &Edit::Lowercase, enough_or_short);
    }
    tally.family("what lowercase leaves, or 7, of the same notes, in the words of include/zulmyren.h");
    for note in letter_notes().into_iter().chain(notes()) {
        let (answer, left) = Edit::Lowercase.answer(&note, 32);
        let text = String::from_utf8_lossy(&left.normalized).into_owned();
        let ours = if answer.refusal == 0 { Ok((text, left.alignments().collect())) } else { Err(answer.refusal) };
        let said = lowercased(&note);
        tally.case(crate::tally::refusal(answer.refusal), ours != said, || {
            format!("said {said:?}, ours {ours:?}, on {note}")
        });
    }
}

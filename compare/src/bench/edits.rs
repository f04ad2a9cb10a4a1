//! Editing: each call on a ready note, which it checks, beside the Rust's on a note that was cloned before.

use super::buffers::Buffers;
use super::layouts::{self, Marked};
use super::{side, timed, Bench, Other, Side, Table, COPYING, RUST};
use crate::edits::{bytes, Change};
use crate::library::{self, Publishing, Written};
use crate::note::Note;
use std::hint::black_box;
use tokenizers::normalizer::Range;
use tokenizers::NormalizedString;

/// Beside the Rust's, and copying the result's bytes and columns.
const TRANSFORM: Table =
    Table::new("`transform`, each of up to 60,000 characters replaced, check included", UNAIMED).because(BY_COMMANDS);
const MIXTURE: Table =
    Table::new("`transform`, all three commands by turns, check included", UNAIMED).because(BY_COMMANDS);
const RANGE: Table =
    Table::new("`transform_range`, one character of the cleaned text, check included", UNAIMED).because(IN_PLACE);
const MAP: Table = Table::new("`map`, check included", &[RUST.at_most([0.11, 0.15, 0.21, 0.26]), COPYING]);
const MAP_EDITED: Table = Table::new("`map` of a note with each literal replaced, check included", UNAIMED);
const LOWERCASE: Table =
    Table::new("`lowercase`, check included", &[RUST.at_most([0.032, 0.11, 0.073, 0.057]), COPYING]).because(ONE_KIND);
const LOWERCASE_DOTTED: Table =
    Table::new("`lowercase` of a note with each literal replaced by U+0130, check included", UNAIMED);
const FILTER: Table =
    Table::new("`filter`, about a third dropped, check included", &[RUST.at_most([0.16, 0.21, 0.22, 0.16]), COPYING]);
const FILTER_HEADED: Table = Table::new(
    "`filter` of a note with a head, about a third dropped, check included",
    &[RUST.at_most([1.0; 4]), COPYING],
)
.because(NOT_SLOWER);
const FILTER_ALL_KEPT: Table =
    Table::new("`filter`, all kept, check included", &[RUST.at_most([0.039, 0.039, 0.078, 0.06]), COPYING]);
const PREPEND: Table = Table::new("`prepend` of 8 bytes, check included", UNAIMED).because(IN_PLACE);
const APPEND: Table = Table::new("`append` of 8 bytes, check included", UNAIMED).because(IN_PLACE);
const CLEAR: Table = Table::new("`clear`, check included", &[RUST.at_most([0.065, 0.072, 0.16, 0.14]), COPYING]);

const UNAIMED: &[Other] = &[RUST, COPYING];

const BY_COMMANDS: &str = "slower than the Rust: a script is read three times, and each command is a step of its own";
const IN_PLACE: &str =
    "slower than the Rust where its heap has room to edit in place: ours checks the note and writes the whole result";
const NOT_SLOWER: &str = "the aim is the Rust's own time, since one kind of machine was measured";
const ONE_KIND: &str = "the aim is what was seen on one kind of machine, and a half of it to spare";

/// What is put before or after a text.
const STRING: &str = "[draft] ";

pub fn bench(bench: &mut Bench) {
    bench.table(&TRANSFORM, |texts| transform(texts, |_| 0));
    bench.table(&MIXTURE, |texts| transform(texts, |i| [0, 1, -1][i % 3]));
    bench.table(&RANGE, transform_range);
    bench.table(&MAP, |texts| map(texts, Marked::fresh));
    bench.table(&MAP_EDITED, |texts| map(texts, Marked::edited));
    bench.table(&LOWERCASE, |texts| lowercase(texts, Marked::fresh));
    bench.table(&LOWERCASE_DOTTED, |texts| lowercase(texts, |marked| marked.replaced(layouts::LITERAL, "İ")));
    bench.table(&FILTER, |texts| filter(texts, Marked::fresh, two_thirds));
    bench.table(&FILTER_HEADED, |texts| filter(texts, headed, two_thirds));
    bench.table(&FILTER_ALL_KEPT, |texts| filter(texts, Marked::fresh, |_| true));
    bench.table(&PREPEND, |texts| on_whole(texts, |note, out| library::prepend(note, string(), out), prepend));
    bench.table(&APPEND, |texts| on_whole(texts, |note, out| library::append(note, string(), out), append));
    bench.table(&CLEAR, |texts| on_whole(texts, |note, out| cleared(library::clear(note, out)), clear));
}

fn prepend(note: &mut NormalizedString) {
    note.prepend(black_box(STRING));
}

fn append(note: &mut NormalizedString) {
    note.append(black_box(STRING));
}

fn clear(note: &mut NormalizedString) {
    black_box(note.clear());
}

fn string() -> &'static [u8] {
    black_box(STRING.as_bytes())
}

fn cleared(answer: library::Cleared) -> Written {
    Written { refusal: answer.refusal, len: answer.len }
}

/// An edit of the starting notes that needs nothing prepared.
fn on_whole(
    texts: &[Marked],
    ours: fn(&Note, Publishing) -> Written,
    theirs: fn(&mut NormalizedString),
) -> Vec<Side<'_>> {
    edit(texts, Marked::fresh, |_| (), move |note, (), out| ours(note, out), move |note, ()| theirs(note))
}

/// An edit by what is prepared of each note, the same for both sides. That both leave the same note is seen first.
fn edit<'a, T: 'a>(
    texts: &'a [Marked],
    note: impl Fn(&Marked) -> NormalizedString,
    prepared: impl Fn(&str) -> T,
    ours: impl Fn(&Note, &T, Publishing) -> Written + 'a,
    theirs: impl Fn(&mut NormalizedString, &T) + 'a,
) -> Vec<Side<'a>> {
    let ready: Vec<NormalizedString> = texts.iter().map(note).collect();
    let notes = layouts::notes(&ready);
    let prepared: std::rc::Rc<Vec<T>> = std::rc::Rc::new(ready.iter().map(|note| prepared(note.get())).collect());
    let results: Vec<Note> = ready
        .iter()
        .zip(prepared.iter())
        .map(|(note, prepared)| {
            let mut made = note.clone();
            theirs(&mut made, prepared);
            Note::from(&made)
        })
        .collect();
    let (mut buffers, mut copies) = (Buffers::new(), Buffers::new());
    for (i, result) in results.iter().enumerate() {
        let made = ours(&notes[i], &prepared[i], buffers.out());
        assert_eq!(made, Written { refusal: 0, len: result.normalized.len() });
        assert!(buffers.hold(result));
    }
    let same = prepared.clone();
    vec![
        side(move |i| timed(|| ours(black_box(&notes[i]), black_box(&prepared[i]), buffers.out()))),
        side(move |i| {
            let mut note = ready[i].clone();
            timed(|| {
                theirs(black_box(&mut note), black_box(&same[i]));
                note
            })
        }),
        side(move |i| timed(|| black_box(&mut copies).copy(black_box(&results[i])))),
    ]
}

/// A script, for both sides: the text's characters by the change that each is given, in another order, so that sizes
/// change. Where removals leave no character, the script ends.
fn transform(texts: &[Marked], change: fn(usize) -> isize) -> Vec<Side<'_>> {
    let prepared = |text: &str| {
        let mut left = text.chars().count();
        let mut changes: Vec<Change> = vec![];
        for (i, character) in text.chars().rev().enumerate() {
            let change = change(i);
            let taken = if change > 0 { 0 } else { 1 + -change as usize };
            if left < taken {
                break;
            }
            left -= taken;
            changes.push((character, change));
        }
        (bytes(&changes), changes)
    };
    edit(
        texts,
        Marked::fresh,
        prepared,
        |note, (script, _), out| library::transform(note, script, 0, out),
        |note, (_, changes)| note.transform(changes.iter().copied(), 0),
    )
}

/// The first character after the middle.
fn transform_range(texts: &[Marked]) -> Vec<Side<'_>> {
    let prepared = |text: &str| {
        let start = crate::texts::boundary_before(text, text.len() / 2);
        start..start + text[start..].chars().next().expect("a long text").len_utf8()
    };
    let changes: [Change; 1] = [('x', 0)];
    let script = bytes(&changes);
    edit(
        texts,
        Marked::fresh,
        prepared,
        move |note, range, out| {
            let range = (false, range.start as u32, range.end as u32);
            library::transform_range(note, range, &script, 0, out)
        },
        move |note, range| note.transform_range(Range::Normalized(range.clone()), changes, 0),
    )
}

fn map(texts: &[Marked], note: fn(&Marked) -> NormalizedString) -> Vec<Side<'_>> {
    let upper = |character: char| character.to_ascii_uppercase();
    edit(
        texts,
        note,
        |text| text.chars().map(|character| upper(character) as u32).collect::<Vec<_>>(),
        |note, codes, out| library::map(note, codes, out),
        move |note, _| {
            note.map(upper);
        },
    )
}

/// The texts have no letter above U+017F that the Rust changes.
fn lowercase(texts: &[Marked], note: fn(&Marked) -> NormalizedString) -> Vec<Side<'_>> {
    edit(
        texts,
        note,
        |_| (),
        |note, (), out| library::lowercase(note, out),
        |note, ()| {
            note.lowercase();
        },
    )
}

/// The first character has no width, so the range begins after it and the flags go one by one. The last character is
/// dropped: so the range has a character for each that is kept.
fn headed(marked: &Marked) -> NormalizedString {
    let mut note = marked.fresh();
    note.prepend("");
    note.append("0");
    assert!(!two_thirds('0'));
    note
}

fn two_thirds(character: char) -> bool {
    !(character as u32).is_multiple_of(3)
}

fn filter(texts: &[Marked], note: fn(&Marked) -> NormalizedString, keep: fn(char) -> bool) -> Vec<Side<'_>> {
    edit(
        texts,
        note,
        |text| text.chars().map(|character| keep(character).into()).collect::<Vec<u8>>(),
        |note, flags, out| library::filter(note, flags, out),
        move |note, _| {
            note.filter(keep);
        },
    )
}

//! Replacing, also by edits, the three calls one after the other, and blanking in one call.

use super::buffers::Buffers;
use super::layouts::{self, any_list, Marked, FILLER, LITERAL};
use super::{side, timed, Bench, Other, Side, Table, COPYING, OURS, RUST};
use crate::library::{self, Written};
use crate::note::Note;
use crate::places::{self, Handed, Place};
use crate::texts::{self, LIMIT};
use std::hint::black_box;
use std::time::Duration;
use tokenizers::pattern::Pattern;
use tokenizers::NormalizedString;

/// Beside `replace`, which does not check, and copying the result's bytes and columns.
const REPLACE: Table = Table::new(
    "`replace` of a list on a ready note, which it checks",
    &[RUST.at_most([0.27, 0.33, 0.34, 0.36]).in_rotation([0.26, 0.33, 0.3, 0.34]), COPYING],
);

const BY_EDITS: Table = Table::new("`replace_by_edits` of 100 matched places beside `replace`", &[OURS]);

const BY_TWICE_THE_EDITS: Table =
    Table::new("`replace_by_edits` of 200 matched places beside 100", &[OURS.at_most([2.2; 4])])
        .because("the aim is twice the time of half the places, with a tenth to spare");

const FROM_TEXT_AND_REPLACE: Table = Table::new("`from_text` and `replace` of a list", FROM_AND_REPLACE);

const THREE_CALLS: Table =
    Table::new("`from_text`, `find_matches` and `replace`, each with its own checks", FROM_AND_REPLACE);

const REDACT: Table = Table::new(
    "`redact`: finding, checks and alignments included",
    &[RUST.at_most([0.07, 0.076, 0.095, 0.11]), COPYING.at_most([4.4, 7.0, 5.5, 8.2])],
)
.of_regular([1.3, 1.2, 1.2, 1.2]);

/// Beside `from` and `replace`, and copying the result's bytes and columns.
const FROM_AND_REPLACE: &[Other] = &[RUST, COPYING];

/// Other literals and fillers than the bench's.
const REDACTIONS: [(&str, &str, &str); 3] = [
    ("`redact` by an empty filler", LITERAL, ""),
    ("`redact` by a filler of 9 bytes, which is longer than the literal", LITERAL, "*********"),
    ("`redact` of an empty literal, which is nowhere", "", FILLER),
];

pub fn bench(bench: &mut Bench) {
    bench.table(&REPLACE, replace);
    by_edits(bench);
    bench.table(&FROM_TEXT_AND_REPLACE, from_text_and_replace);
    bench.table(&THREE_CALLS, three_calls);
    bench.table(&REDACT, |texts| redact(texts, LITERAL, FILLER));
    for (name, literal, filler) in REDACTIONS {
        bench.table(&Table::new(name, FROM_AND_REPLACE), |texts| redact(texts, literal, filler));
    }
}

fn replace_of(note: &Note, list: &[u8], buffers: &mut Buffers) -> Written {
    library::replace(black_box(note), black_box(list), black_box(FILLER.as_bytes()), buffers.out())
}

/// Copying each text's published note.
fn copying<'a>(texts: &[Marked], literal: &str, filler: &str) -> Side<'a> {
    let results: Vec<_> = texts.iter().map(|text| text.replaced(literal, filler)).collect();
    let results = layouts::notes(&results);
    let mut buffers = Buffers::new();
    side(move |i| timed(|| black_box(&mut buffers).copy(black_box(&results[i]))))
}

/// The time of `from` and `replace`.
fn from_and_replace(text: &str, pattern: impl Pattern, filler: &str) -> Duration {
    let owned = text.to_owned();
    timed(|| {
        let mut note = NormalizedString::from(black_box(owned));
        note.replace(pattern, black_box(filler)).expect("a list or a literal is found");
        note
    })
}

fn replace(texts: &[Marked]) -> Vec<Side<'_>> {
    let ready: Vec<NormalizedString> = texts.iter().map(Marked::fresh).collect();
    let notes = layouts::notes(&ready);
    let lists: Vec<Vec<u8>> = texts.iter().map(Marked::list).collect();
    let mut buffers = Buffers::new();
    assert!((0..texts.len()).all(|i| replace_of(&notes[i], &lists[i], &mut buffers).refusal == 0));
    vec![
        side(move |i| timed(|| replace_of(&notes[i], &lists[i], &mut buffers))),
        side(move |i| {
            let (mut theirs, places) = (ready[i].clone(), Handed::new(&texts[i].places));
            timed(|| {
                theirs.replace(places, black_box(FILLER)).expect("the places are given");
                theirs
            })
        }),
        copying(texts, LITERAL, FILLER),
    ]
}

/// On one text, since it takes milliseconds.
fn by_edits(bench: &mut Bench) {
    let mixed = 1;
    let (name, text) = (bench.texts[mixed].name, bench.texts[mixed].regular[0].text.clone());
    bench.row(&BY_EDITS, name, Some(mixed), vec![our_edits(&text, 100), our_replacement(&text, 100)]);
    bench.row(&BY_TWICE_THE_EDITS, name, Some(mixed), [200, 100].map(|count| our_edits(&text, count)).into());
}

/// A text's note, and a list with so many matched places, about as long as the literal and evenly spread.
fn spread(text: &str, count: usize) -> (Note, Vec<u8>) {
    let at = |i: usize| texts::boundary_before(text, i);
    let places = (0..count).flat_map(|i| {
        let (start, next) = (at(i * text.len() / count), at((i + 1) * text.len() / count));
        let end = at(start + LITERAL.len());
        [((start, end), true), ((end, next), false)]
    });
    (Note::from(&NormalizedString::from(text)), places::bytes(&places.collect::<Vec<Place>>()))
}

fn our_edits<'a>(text: &str, count: usize) -> Side<'a> {
    let (note, list) = spread(text, count);
    let [mut out, mut first, mut second] = [LIMIT, 2 * LIMIT, 2 * LIMIT].map(Buffers::of);
    let mut ours = move || {
        let scratch = [first.out(), second.out()];
        library::replace_by_edits(black_box(&note), black_box(&list), black_box(FILLER.as_bytes()), out.out(), scratch)
    };
    assert_eq!(ours().refusal, 0);
    side(move |_| timed(&mut ours))
}

fn our_replacement<'a>(text: &str, count: usize) -> Side<'a> {
    let (note, list) = spread(text, count);
    let mut buffers = Buffers::new();
    assert_eq!(replace_of(&note, &list, &mut buffers).refusal, 0);
    side(move |_| timed(|| replace_of(&note, &list, &mut buffers)))
}

fn from_text_and_replace(texts: &[Marked]) -> Vec<Side<'_>> {
    let mut notes = layouts::notes(&texts.iter().map(Marked::fresh).collect::<Vec<_>>());
    let lists: Vec<Vec<u8>> = texts.iter().map(Marked::list).collect();
    let mut buffers = Buffers::new();
    vec![
        side(move |i| {
            let note = &mut notes[i];
            timed(|| {
                let fresh = library::from_text(black_box(texts[i].bytes()), &mut note.starts, &mut note.ends);
                (fresh, replace_of(note, &lists[i], &mut buffers))
            })
        }),
        side(|i| from_and_replace(&texts[i].text, Handed::new(&texts[i].places), FILLER)),
        copying(texts, LITERAL, FILLER),
    ]
}

fn three_calls(texts: &[Marked]) -> Vec<Side<'_>> {
    let mut notes = layouts::notes(&texts.iter().map(Marked::fresh).collect::<Vec<_>>());
    let (mut buffers, mut list) = (Buffers::new(), any_list());
    vec![
        side(move |i| {
            let (text, note) = (black_box(texts[i].bytes()), &mut notes[i]);
            timed(|| {
                let fresh = library::from_text(text, &mut note.starts, &mut note.ends);
                let found = library::find_matches(text, black_box(LITERAL.as_bytes()), &mut list);
                (fresh, found, replace_of(note, &list[..found.len], &mut buffers))
            })
        }),
        side(|i| from_and_replace(&texts[i].text, LITERAL, FILLER)),
        copying(texts, LITERAL, FILLER),
    ]
}

fn redact<'a>(texts: &'a [Marked], literal: &'static str, filler: &'static str) -> Vec<Side<'a>> {
    let mut buffers = Buffers::new();
    let mut ours = move |i: usize| {
        let [text, literal, filler] = [texts[i].bytes(), literal.as_bytes(), filler.as_bytes()].map(black_box);
        library::redact(text, literal, filler, buffers.out())
    };
    assert!((0..texts.len()).all(|i| ours(i).refusal == 0));
    vec![
        side(move |i| timed(|| ours(i))),
        side(move |i| from_and_replace(&texts[i].text, literal, filler)),
        copying(texts, literal, filler),
    ]
}

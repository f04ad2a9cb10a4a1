//! The starting note and the check of a note.

use super::layouts::{self, Marked, LEN};
use super::{side, timed, Bench, Side, Table, COPYING, RUST};
use crate::library;
use crate::note::Note;
use std::hint::black_box;
use tokenizers::NormalizedString;

/// Each beside `NormalizedString::from`.
const CHECK_FRESH: Table = Table::new("`check_note` of the starting note", &[RUST.at_most([0.069, 0.085, 0.16, 0.15])]);

const CHECK_EDITED: Table = Table::new(
    "`check_note` of a note with each literal replaced, the general way",
    &[RUST.at_most([0.11, 0.22, 0.38, 0.34])],
);

const FROM_TEXT: Table = Table::new("`from_text`", &[RUST, COPYING]);

pub fn bench(bench: &mut Bench) {
    bench.table(&CHECK_FRESH, |texts| check(texts, texts.iter().map(Marked::fresh)));
    bench.table(&CHECK_EDITED, |texts| check(texts, texts.iter().map(Marked::edited)));
    bench.table(&FROM_TEXT, from_text);
}

fn check(texts: &[Marked], notes: impl Iterator<Item = NormalizedString>) -> Vec<Side<'_>> {
    let notes: Vec<Note> = notes.map(|note| Note::from(&note)).collect();
    assert!(notes.iter().all(|note| note.refusal() == 0));
    vec![side(move |i| timed(|| library::check_note(black_box(&notes[i])))), side(|i| from(&texts[i].text))]
}

/// The time of `NormalizedString::from`.
fn from(text: &str) -> std::time::Duration {
    let owned = text.to_owned();
    timed(|| NormalizedString::from(black_box(owned)))
}

fn from_text(texts: &[Marked]) -> Vec<Side<'_>> {
    let (mut starts, mut ends) = (vec![0; LEN], vec![0; LEN]);
    let (mut copied_starts, mut copied_ends) = (vec![0; LEN], vec![0; LEN]);
    let notes = layouts::notes(&texts.iter().map(Marked::fresh).collect::<Vec<_>>());
    vec![
        side(move |i| timed(|| library::from_text(black_box(texts[i].bytes()), &mut starts, &mut ends))),
        side(|i| from(&texts[i].text)),
        side(move |i| {
            let note = black_box(&notes[i]);
            timed(|| {
                copied_starts[..note.starts.len()].copy_from_slice(&note.starts);
                copied_ends[..note.ends.len()].copy_from_slice(&note.ends);
                black_box((&mut copied_starts, &mut copied_ends)).0.len()
            })
        }),
    ]
}

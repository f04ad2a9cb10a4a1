//! Slicing.

use super::layouts::{self, Marked, LEN};
use super::{side, timed, Bench, Side, Table, RUST};
use crate::library;
use crate::texts;
use std::hint::black_box;
use tokenizers::normalizer::Range;
use tokenizers::NormalizedString;

const SLICE: Table =
    Table::new("`slice`, half of the cleaned text, check included", &[RUST.at_most([0.59, 0.97, 1.0, 1.3])]).because(
        "on emoji text slower than the Rust: nearly all of it is the check of the note, which the Rust has not",
    );

const SLICE_ORIGINAL: Table =
    Table::new("`slice`, half of the transcript, check included", &[RUST.at_most([0.15, 0.24, 0.27, 0.29])]);

pub fn bench(bench: &mut Bench) {
    bench.table(&SLICE, |texts| slice(texts, false));
    bench.table(&SLICE_ORIGINAL, |texts| slice(texts, true));
}

fn slice(texts: &[Marked], of_original: bool) -> Vec<Side<'_>> {
    let theirs: Vec<NormalizedString> = texts.iter().map(Marked::fresh).collect();
    let notes = layouts::notes(&theirs);
    let half = |i: usize| {
        let text: &str = &texts[i].text;
        let cut = |at| texts::boundary_before(text, at);
        black_box(cut(text.len() / 4)..cut(text.len() * 3 / 4))
    };
    let (mut starts, mut ends) = (vec![0; LEN], vec![0; LEN]);
    let mut ours = move |i: usize| {
        let asked = (half(i).start as u32, half(i).end as u32);
        library::slice(black_box(&notes[i]), of_original, asked, &mut starts, &mut ends)
    };
    assert!((0..texts.len()).all(|i| ours(i).refusal == 0));
    vec![
        side(move |i| timed(|| ours(i))),
        side(move |i| {
            let range = if of_original { Range::Original(half(i)) } else { Range::Normalized(half(i)) };
            timed(|| black_box(&theirs[i]).slice(range))
        }),
    ]
}

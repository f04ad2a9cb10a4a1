//! Converting one range, and a list of them.

use super::characters::{list_of, Answers};
use super::layouts::{self, Marked};
use super::{side, timed, Bench, Side, Table, RUST};
use crate::library;
use crate::texts;
use std::hint::black_box;
use tokenizers::normalizer::Range;
use tokenizers::NormalizedString;

const NEAR_THE_END: Table = Table::new(
    "`convert_offsets`, 51 bytes near the original's end to normalized, check included",
    &[RUST.at_most([0.17, 0.29, 0.3, 0.38])],
);

const FROM_THE_BEGINNING: Table =
    Table::new("`convert_offsets`, from the original's beginning to near its end, check included", &[RUST]);

const BEYOND_THE_CHECK: Table =
    Table::new("`convert_offsets`, 51 bytes near the original's end to normalized", &[RUST]).beyond("`check_note`");

/// Beside 8,000 calls of `NormalizedString::convert_offsets`.
const LISTS: Table =
    Table::new("`convert_all`, 8,000 ranges normalized to original", &[RUST.at_most([0.92, 0.9, 0.9, 0.91])])
        .beyond("`check_note`");

pub fn bench(bench: &mut Bench) {
    bench.table(&NEAR_THE_END, |texts| walk(texts, |text| text.len() - 60));
    bench.table(&FROM_THE_BEGINNING, |texts| walk(texts, |_| 0));
    bench.table(&BEYOND_THE_CHECK, |texts| {
        let mut sides = walk(texts, |text| text.len() - 60);
        sides.insert(1, check(texts));
        sides
    });
    bench.table(&LISTS, lists);
}

/// The check of the starting notes.
fn check(texts: &[Marked]) -> Side<'_> {
    let notes = layouts::notes(&fresh(texts));
    side(move |i| timed(|| library::check_note(black_box(&notes[i]))))
}

fn fresh(texts: &[Marked]) -> Vec<NormalizedString> {
    texts.iter().map(Marked::fresh).collect()
}

/// Wherever the range begins, the alignments are walked from the first to its end.
fn walk(texts: &[Marked], begin: fn(&str) -> usize) -> Vec<Side<'_>> {
    let theirs = fresh(texts);
    let notes = layouts::notes(&theirs);
    let range = move |i: usize| {
        let text: &str = &texts[i].text;
        let cut = |at| texts::boundary_before(text, at);
        black_box(cut(begin(text))..cut(text.len() - 9))
    };
    vec![
        side(move |i| {
            let (start, end) = (range(i).start as u32, range(i).end as u32);
            timed(|| library::convert_offsets(black_box(&notes[i]), true, start, end))
        }),
        side(move |i| {
            let range = range(i);
            timed(|| black_box(&theirs[i]).convert_offsets(Range::Original(range)))
        }),
    ]
}

fn lists(texts: &[Marked]) -> Vec<Side<'_>> {
    let theirs = fresh(texts);
    let notes = layouts::notes(&theirs);
    let ranges: Vec<_> = texts.iter().map(Marked::ranges).collect();
    let lists: Vec<_> = ranges.iter().map(|ranges| list_of(ranges)).collect();
    let (mut answers, mut their_answers) = (Answers::default(), vec![None; 8_000]);
    vec![
        side(move |i| {
            let (from, to, out) = (black_box(&lists[i].from), black_box(&lists[i].to), answers.out());
            timed(|| library::convert_all(black_box(&notes[i]), false, from, to, out))
        }),
        check(texts),
        side(move |i| {
            timed(|| {
                for (range, answer) in black_box(&ranges[i]).iter().zip(&mut their_answers) {
                    *answer = theirs[i].convert_offsets(Range::Normalized(range.clone()));
                }
                black_box(&their_answers).len()
            })
        }),
    ]
}

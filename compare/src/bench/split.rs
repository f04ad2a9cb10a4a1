//! Splitting and split offsets.

use super::layouts::{self, Marked, LEN};
use super::{side, timed, Bench, Side, Table, OURS, RUST};
use crate::library::{self, Cut, Cutting, Written};
use crate::note::{Note, Offset};
use crate::places::{self, Handed, Place};
use crate::split::number;
use crate::texts;
use std::hint::black_box;
use tokenizers::normalizer::SplitDelimiterBehavior::{self, Contiguous, Isolated, MergedWithPrevious};
use tokenizers::pre_tokenizer::{OffsetType, PreTokenizedString};
use tokenizers::{NormalizedString, OffsetReferential};

const MANY: usize = 10_000;

/// Beside `NormalizedString::split` of a list, which does not check; its pieces are freed after the clock is read.
const SPLIT: Table =
    Table::new("`split` into 10,000 pieces, check included", &[RUST.at_most([0.088, 0.11, 0.11, 0.11])]);

const CONTIGUOUS: Table = Table::new("`split` of 10,000 places that are by turns matched, Contiguous", &[RUST]);

const MERGED: Table = Table::new("`split` of 10,000 places into 5,000 pieces, MergedWithPrevious", &[RUST]);

const GROWTH: Table = Table::new("`split` into 10,000 pieces beside 1,250", &[OURS.at_most([3.2, 2.5, 2.5, 2.3])]);

/// Beside `PreTokenizedString::split` of a list, and `get_splits`.
const CHARACTERS: Table = Table::new(
    "`get_splits` of 10,000 pieces, transcript, in characters, check included",
    &[RUST.at_most([0.011, 0.021, 0.022, 0.022])],
);

const BYTES: Table = Table::new("`get_splits` of 10,000 pieces, transcript, in bytes, check included", &[RUST]);

const OFFSETS_GROWTH: Table =
    Table::new("`get_splits` of 10,000 pieces, in characters, beside 1,250", &[OURS.at_most([3.2, 2.9, 2.8, 2.6])]);

pub fn bench(bench: &mut Bench) {
    bench.table(&SPLIT, |texts| split(texts, Isolated));
    bench.table(&CONTIGUOUS, |texts| split(texts, Contiguous));
    bench.table(&MERGED, |texts| split(texts, MergedWithPrevious));
    bench.table(&GROWTH, |texts| [MANY, MANY / 8].map(|count| our_split(texts, count, Isolated)).into());
    bench.table(&CHARACTERS, |texts| get_splits(texts, OffsetType::Char));
    bench.table(&BYTES, |texts| get_splits(texts, OffsetType::Byte));
    bench.table(&OFFSETS_GROWTH, |texts| [MANY, MANY / 8].map(|count| our_splits(texts, count, true)).into());
}

fn fresh(texts: &[Marked]) -> Vec<NormalizedString> {
    texts.iter().map(Marked::fresh).collect()
}

/// So many places of a text, by turns matched or not.
fn cut(text: &str, count: usize) -> Vec<Place> {
    let at = |i: usize| texts::boundary_before(text, i * text.len() / count);
    (0..count).map(|i| ((at(i), at(i + 1)), i % 2 == 1)).collect()
}

/// Buffers for the pieces of a note.
struct Buffers {
    starts: Vec<Offset>,
    ends: Vec<Offset>,
    shifts: Vec<u32>,
    lengths: Vec<Offset>,
    alignment_starts: Vec<Offset>,
    alignment_ends: Vec<Offset>,
}

impl Buffers {
    fn new() -> Self {
        let [starts, ends, lengths] = [(); 3].map(|()| vec![0; MANY]);
        let [alignment_starts, alignment_ends] = [(); 2].map(|()| vec![0; LEN]);
        Buffers { starts, ends, shifts: vec![0; MANY], lengths, alignment_starts, alignment_ends }
    }

    fn split(&mut self, note: &Note, list: &[u8], behavior: SplitDelimiterBehavior) -> Cut {
        let out = Cutting {
            starts: &mut self.starts,
            ends: &mut self.ends,
            shifts: &mut self.shifts,
            lengths: &mut self.lengths,
            alignment_starts: &mut self.alignment_starts,
            alignment_ends: &mut self.alignment_ends,
        };
        library::split(black_box(note), black_box(list), number(behavior), false, out)
    }
}

/// The list of so many places, for each text.
fn lists(texts: &[Marked], count: usize) -> Vec<Vec<u8>> {
    texts.iter().map(|text| places::bytes(&cut(&text.text, count))).collect()
}

fn our_split(texts: &[Marked], count: usize, behavior: SplitDelimiterBehavior) -> Side<'_> {
    let (notes, lists) = (layouts::notes(&fresh(texts)), lists(texts, count));
    let mut buffers = Buffers::new();
    assert!((0..texts.len()).all(|i| buffers.split(&notes[i], &lists[i], behavior).refusal == 0));
    side(move |i| timed(|| buffers.split(&notes[i], &lists[i], behavior)))
}

fn split(texts: &[Marked], behavior: SplitDelimiterBehavior) -> Vec<Side<'_>> {
    let ready = fresh(texts);
    let places = |i: usize| Handed::new(&cut(&texts[i].text, MANY));
    vec![
        our_split(texts, MANY, behavior),
        side(move |i| {
            let places = places(i);
            timed(|| black_box(&ready[i]).split(places, black_box(behavior)))
        }),
    ]
}

fn our_splits(texts: &[Marked], count: usize, characters: bool) -> Side<'_> {
    let (notes, lists) = (layouts::notes(&fresh(texts)), lists(texts, count));
    let (mut starts, mut ends) = (vec![0; MANY], vec![0; MANY]);
    let mut ours = move |i: usize| -> Written {
        let (note, list): (&Note, &[u8]) = (black_box(&notes[i]), black_box(&lists[i]));
        library::get_splits(note, list, number(Isolated), [true, characters], &mut starts, &mut ends)
    };
    assert!((0..texts.len()).all(|i| ours(i).refusal == 0));
    side(move |i| timed(|| ours(i)))
}

/// What is freed is freed after the clock is read: the pieces, and the offsets.
fn get_splits(texts: &[Marked], unit: OffsetType) -> Vec<Side<'_>> {
    let ready = fresh(texts);
    vec![
        our_splits(texts, MANY, unit == OffsetType::Char),
        side(move |i| {
            let places = Handed::new(&cut(&texts[i].text, MANY));
            let (mut splits, mut places) = (PreTokenizedString::from(ready[i].clone()), Some(places));
            timed(|| {
                let cut = |_, note: NormalizedString| note.split(places.take().expect("one split"), Isolated);
                splits.split(cut).expect("the places are given");
                let offsets: Vec<_> = splits
                    .get_splits(OffsetReferential::Original, unit)
                    .into_iter()
                    .map(|(_, offsets, _)| offsets)
                    .collect();
                (splits, offsets)
            })
        }),
    ]
}

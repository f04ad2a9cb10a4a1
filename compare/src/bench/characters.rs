//! Well-formedness, letters and character positions.

use super::layouts::Marked;
use super::{side, timed, Bench, Side, Table, RUST, SIMDUTF8};
use crate::library::{self, Columns};
use crate::lists::List;
use crate::positions::shuffle;
use crate::random::Random;
use std::hint::black_box;
use std::ops::Range;
use std::str::from_utf8;
use tokenizers::pre_tokenizer::Converter;

/// Beside `core::str::from_utf8` and `simdutf8::basic::from_utf8`.
const WELL_FORMED: Table =
    Table::new("`well_formed`", &[RUST.at_most([0.65, 0.11, 0.14, 0.3]), SIMDUTF8.at_most([1.3, 1.2, 1.3, 2.3])]);

/// Beside `core::str::from_utf8` or `simdutf8`, and `chars().count()`.
const LETTER_COUNT: Table = Table::new("`letter_count`, which checks the text", &[RUST, SIMDUTF8]);

/// Beside `BytesToCharOffsetConverter` built and asked 8,000 times.
const CHAR_OFFSETS: Table =
    Table::new("`char_offsets_all`, 8,000 pairs in order", &[RUST.at_most([0.0087, 0.0094, 0.0097, 0.011])]);

const CHAR_OFFSETS_SHUFFLED: Table = Table::new("`char_offsets_all`, 8,000 pairs in random order", &[RUST]);

pub fn bench(bench: &mut Bench) {
    bench.table(&WELL_FORMED, well_formed);
    bench.table(&LETTER_COUNT, letter_count);
    bench.table(&CHAR_OFFSETS, |texts| char_offsets(texts, texts.iter().map(Marked::ranges).collect()));
    bench.table(&CHAR_OFFSETS_SHUFFLED, |texts| {
        let mut pairs: Vec<Vec<Range<usize>>> = texts.iter().map(Marked::ranges).collect();
        let mut random = Random::new(61);
        pairs.iter_mut().for_each(|pairs| shuffle(pairs, &mut random));
        char_offsets(texts, pairs)
    });
}

fn well_formed(texts: &[Marked]) -> Vec<Side<'_>> {
    let bytes = |i: usize| black_box(texts[i].bytes());
    vec![
        side(move |i| timed(|| library::well_formed(bytes(i)))),
        side(move |i| timed(|| from_utf8(bytes(i)).is_ok())),
        side(move |i| timed(|| simdutf8::basic::from_utf8(bytes(i)).is_ok())),
    ]
}

fn letter_count(texts: &[Marked]) -> Vec<Side<'_>> {
    let bytes = |i: usize| black_box(texts[i].bytes());
    vec![
        side(move |i| timed(|| library::letter_count(bytes(i), 0, texts[i].text.len() as u32))),
        side(move |i| timed(|| from_utf8(bytes(i)).map(|text| text.chars().count()))),
        side(move |i| timed(|| simdutf8::basic::from_utf8(bytes(i)).map(|text| text.chars().count()))),
    ]
}

/// Both ends of each range, as a list in the library's form.
pub fn list_of(ranges: &[Range<usize>]) -> List {
    let pairs: Vec<(u32, u32)> = ranges.iter().map(|range| (range.start as u32, range.end as u32)).collect();
    List::of(&pairs)
}

/// Buffers for the answers to a list of up to 8,000.
#[derive(Default)]
pub struct Answers {
    numbers: Vec<u8>,
    starts: Vec<u32>,
    ends: Vec<u32>,
}

impl Answers {
    pub fn out(&mut self) -> Columns<'_> {
        self.numbers.resize(8_000, 0);
        self.starts.resize(8_000, 0);
        self.ends.resize(8_000, 0);
        Columns { numbers: &mut self.numbers, starts: &mut self.starts, ends: &mut self.ends }
    }
}

fn char_offsets(texts: &[Marked], pairs: Vec<Vec<Range<usize>>>) -> Vec<Side<'_>> {
    let lists: Vec<List> = pairs.iter().map(|pairs| list_of(pairs)).collect();
    let mut ours = Answers::default();
    let mut theirs = vec![None; 8_000];
    vec![
        side(move |i| {
            let (from, to, out) = (black_box(&lists[i].from), black_box(&lists[i].to), ours.out());
            timed(|| library::char_offsets_all(black_box(texts[i].bytes()), from, to, out))
        }),
        side(move |i| {
            timed(|| {
                let map = Converter::new(black_box(&texts[i].text));
                for (pair, answer) in black_box(&pairs[i]).iter().zip(&mut theirs) {
                    *answer = map.convert((pair.start, pair.end));
                }
                map
            })
        }),
    ]
}

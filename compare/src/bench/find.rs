//! Finding a literal.

use super::layouts::{any_list, LEN, LITERAL};
use super::{side, timed, Bench, Other, Side, Table, MEMMEM, RUST, SIMDUTF8};
use crate::library;
use memchr::memmem;
use std::hint::black_box;
use tokenizers::pattern::Pattern;

/// Beside `find_matches` of a `&str`, `simdutf8` and `memchr::memmem`, and `memchr::memmem` alone.
const OTHERS: &[Other] = &[RUST, SIMDUTF8, MEMMEM];

const EVERYWHERE: Table = Table::new("`find_matches` of a literal every 45 bytes", OTHERS);

const NOWHERE: Table =
    Table::new("`find_matches` of a literal that is nowhere", &[RUST, SIMDUTF8.at_most([1.5, 1.3, 1.3, 2.1]), MEMMEM]);

const NEARLY: Table = Table::new("`find_matches` of a literal that nearly matches at every byte", OTHERS);

pub fn bench(bench: &mut Bench) {
    bench.table(&EVERYWHERE, |texts| find(|i| &texts[i].text, LITERAL));
    bench.table(&NOWHERE, |texts| find(|i| &texts[i].text, "QQQ"));
    let text = "a".repeat(LEN);
    for len in [2, 20, 200] {
        let literal = "a".repeat(len - 1) + "b";
        bench.row(&NEARLY, &format!("a..a, and {len} bytes a..ab"), None, find(|_| &text, &literal));
    }
}

fn find<'a>(text: impl Fn(usize) -> &'a String + Copy + 'a, literal: &'a str) -> Vec<Side<'a>> {
    let strings = move |i: usize| (black_box(text(i).as_bytes()), black_box(literal.as_bytes()));
    let mut list = any_list();
    let [mut places, mut checked_places] = [(); 2].map(|()| Vec::with_capacity(LEN));
    vec![
        side(move |i| {
            let (text, literal) = strings(i);
            timed(|| library::find_matches(text, literal, &mut list))
        }),
        side(move |i| timed(|| black_box(literal).find_matches(black_box(text(i))))),
        side(move |i| {
            let (text, literal) = strings(i);
            checked_places.clear();
            timed(|| {
                checked_places.extend(memmem::find_iter(text, literal));
                simdutf8::basic::from_utf8(text).is_ok()
            })
        }),
        side(move |i| {
            let (text, literal) = strings(i);
            places.clear();
            timed(|| places.extend(memmem::find_iter(text, literal)))
        }),
    ]
}

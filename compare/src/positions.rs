//! Character positions: pairs of bytes as pairs of characters, beside the Rust original's map of a text.

use crate::every;
use crate::library::{self, Offsets};
use crate::lists::{self, List};
use crate::random::Random;
use crate::refusals::{ILL_FORMED, TOO_LONG};
use crate::samples::{self, ADDRESSES};
use crate::tally::{self, hex, Report, Tally};
use crate::texts::{self, KINDS, LIMIT, OFFSETS, UNITS};
use std::str::from_utf8;
use tokenizers::pre_tokenizer::Converter;

/// Far past every text.
const FAR: [usize; 5] = [LIMIT, LIMIT + 1, LIMIT + 2, 1 << 31, u32::MAX as usize];

pub fn compare(report: &mut Report) {
    report.call("zulmyren_char_offsets", "BytesToCharOffsetConverter::convert", |tally| {
        two_bytes(tally);
        four_characters(tally);
        blocks(tally);
        texts_around_the_limit(tally);
        any_texts(tally);
        empty_text_anywhere(tally);
    });
    report.call("zulmyren_char_offsets_all", "the single call and BytesToCharOffsetConverter::convert", |tally| {
        lists_of_four_characters(tally);
        lists_in_every_room(tally);
        lists_of_any_texts(tally);
        long_lists(tally);
        no_list_anywhere(tally);
    });
}

/// A text, and the Rust original's map of it, or the refusal that docs/RULES.md gives it.
pub struct Sample {
    pub text: Vec<u8>,
    theirs: Result<Converter, u32>,
}

impl From<Vec<u8>> for Sample {
    fn from(text: Vec<u8>) -> Self {
        let theirs = match from_utf8(&text) {
            _ if text.len() > LIMIT => Err(TOO_LONG),
            Ok(text) => Ok(Converter::new(text)),
            Err(_) => Err(ILL_FORMED),
        };
        Sample { text, theirs }
    }
}

impl Sample {
    pub fn refusal(&self) -> u32 {
        self.theirs.as_ref().err().copied().unwrap_or(0)
    }

    pub fn expected(&self, start: u32, end: u32) -> Offsets {
        match &self.theirs {
            Err(refusal) => Offsets::refused(*refusal),
            Ok(map) => Offsets::of(map.convert((start as usize, end as usize))),
        }
    }

    fn any_pair(&self, random: &mut Random) -> (u32, u32) {
        let len = self.text.len();
        let mut end = || match random.below(10) {
            0 => len + random.below(3),
            1 => (len + 2).saturating_sub(random.below(5)),
            2 => random.below(20),
            _ => random.below(len + 1),
        };
        let (one, other) = (end(), end());
        let (start, end) = match random.below(10) {
            0 => (one, *random.choose(&FAR)),
            1 => (*random.choose(&FAR), one),
            2 | 3 => (one, other),
            4 => (one, one),
            _ => (one.min(other), one.max(other)),
        };
        (start as u32, end as u32)
    }
}

fn char_offsets(tally: &mut Tally, sample: &Sample, (start, end): (u32, u32)) {
    let ours = library::char_offsets(&sample.text, start, end);
    let theirs = sample.expected(start, end);
    tally.case(tally::refusal(ours.refusal), ours != theirs, || {
        format!("ours {ours:?}, theirs {theirs:?} on {start}, {end} of {}", hex(&sample.text))
    });
}

fn every_pair(tally: &mut Tally, sample: &Sample) {
    for pair in pairs_to(sample.text.len() + 3) {
        char_offsets(tally, sample, pair);
    }
}

/// Every pair of numbers up to `last`, and of these and far ones.
fn pairs_to(last: usize) -> Vec<(u32, u32)> {
    let ends: Vec<u32> = (0..=last).chain(FAR).map(|end| end as u32).collect();
    ends.iter().flat_map(|&start| ends.iter().map(move |&end| (start, end))).collect()
}

fn two_bytes(tally: &mut Tally) {
    tally.family("every text of up to 2 bytes, every pair to 3 past the text and far ones");
    for len in 0..=2 {
        for number in 0..1_u32 << (8 * len) {
            every_pair(tally, &Sample::from(number.to_le_bytes()[..len].to_vec()));
        }
    }
}

fn four_characters(tally: &mut Tally) {
    tally.family("every text of up to 4 characters of 1 to 4 bytes, every pair to 3 past the text and far ones");
    for characters in every::list(&["", "a", "é", "漢", "😀"], 4) {
        every_pair(tally, &Sample::from(characters.concat().into_bytes()));
    }
}

fn blocks(tally: &mut Tally) {
    tally.family("every pair of texts of 200 bytes");
    for unit in UNITS {
        every_pair(tally, &Sample::from(texts::repeated(unit, OFFSETS).into_bytes()));
    }
}

fn texts_around_the_limit(tally: &mut Tally) {
    tally
        .family("texts about the limit and of 131072 bytes, whole and with the last byte damaged, pairs at their ends");
    let mut random = Random::new(20);
    for len in (LIMIT - 2..=LIMIT + 3).chain([131_072]) {
        for kind in KINDS {
            let text = texts::text(kind, len, &mut random).into_bytes();
            let mut damaged = text.clone();
            damaged[len - 1] = 0xC3;
            for sample in [text, damaged].map(Sample::from) {
                for (one, other) in every::pair(9) {
                    let near = |distance: usize| if distance == 0 { 0 } else { (len + 4 - distance) as u32 };
                    char_offsets(tally, &sample, (near(one), near(other)));
                }
                for far in FAR {
                    char_offsets(tally, &sample, (len as u32 - 1, far as u32));
                    char_offsets(tally, &sample, (far as u32, 0));
                }
            }
        }
    }
}

fn any_texts(tally: &mut Tally) {
    tally.family("any pairs of texts of any length, whole and with one byte damaged");
    let mut random = Random::new(21);
    for turn in 0..2_000 {
        let longest = if turn % 10 == 0 { LIMIT } else { 300 };
        for sample in samples::whole_and_damaged(longest, &mut random).map(Sample::from) {
            for _ in 0..60 {
                char_offsets(tally, &sample, sample.any_pair(&mut random));
            }
        }
    }
}

fn empty_text_anywhere(tally: &mut Tally) {
    tally.family("the empty text at any pointer");
    let empty = Sample::from(vec![]);
    for address in ADDRESSES {
        for (start, end) in pairs_to(3) {
            let ours = unsafe { library::zulmyren_char_offsets(address as *const u8, 0, start, end) };
            let theirs = empty.expected(start, end);
            tally.case(tally::refusal(ours.refusal), ours != theirs, || {
                format!("ours {ours:?}, theirs {theirs:?} on {start}, {end} of the empty text at {address:#x}")
            });
        }
    }
}

fn convert_list(tally: &mut Tally, sample: &Sample, list: &List) {
    lists::case(
        tally,
        list,
        sample.refusal(),
        |from, to, out| library::char_offsets_all(&sample.text, from, to, out),
        |from, to| library::char_offsets(&sample.text, from, to),
        |from, to| sample.expected(from, to),
        || hex(&sample.text),
    );
}

/// As they come, in order, and in reversed order.
fn in_three_orders(pairs: Vec<(u32, u32)>) -> [Vec<(u32, u32)>; 3] {
    let mut in_order = pairs.clone();
    in_order.sort();
    let reversed = in_order.iter().rev().copied().collect();
    [pairs, in_order, reversed]
}

fn lists_of_four_characters(tally: &mut Tally) {
    tally.family("every text of up to 4 characters of 1 to 4 bytes, the list of every pair in three orders");
    let mut random = Random::new(22);
    for characters in every::list(&["", "a", "é", "漢", "😀"], 4) {
        let sample = Sample::from(characters.concat().into_bytes());
        let mut pairs = pairs_to(sample.text.len() + 3);
        shuffle(&mut pairs, &mut random);
        for pairs in in_three_orders(pairs) {
            convert_list(tally, &sample, &List::of(&pairs));
        }
    }
}

pub fn shuffle<T>(list: &mut [T], random: &mut Random) {
    for i in 1..list.len() {
        list.swap(i, random.below(i + 1));
    }
}

fn lists_in_every_room(tally: &mut Tally) {
    tally
        .family("texts well-formed or not, too long or not, lists of every two lengths to 3 in every three rooms to 4");
    let long = |character: &str| texts::repeated(character, LIMIT + 1).into_bytes();
    let texts: [Vec<u8>; 6] =
        [vec![], "aéb".into(), b"a\xC3".into(), long("a"), long("漢"), [long("a"), b"\xFF".into()].concat()];
    for sample in texts.map(Sample::from) {
        for list in lists::every_size([(1, 3), (9, 0), (0, 4)]) {
            convert_list(tally, &sample, &list);
        }
    }
}

fn lists_of_any_texts(tally: &mut Tally) {
    tally.family("lists of up to 60 pairs in three orders, of texts of any length, whole and damaged, in any room");
    let mut random = Random::new(23);
    for turn in 0..3_000 {
        let longest = if turn % 20 == 0 { LIMIT } else { 300 };
        for sample in samples::whole_and_damaged(longest, &mut random).map(Sample::from) {
            any_lists(tally, &sample, 60, &mut random);
        }
    }
}

fn any_lists(tally: &mut Tally, sample: &Sample, longest: usize, random: &mut Random) {
    let count = random.below(longest + 1);
    let pairs = (0..count).map(|_| sample.any_pair(random)).collect();
    for pairs in in_three_orders(pairs) {
        convert_list(tally, sample, &List::any(&pairs, random));
    }
}

fn long_lists(tally: &mut Tally) {
    tally.family(
        "lists of up to 2000 pairs in three orders, of texts up to the limit, and of up to 100000, to 100 bytes",
    );
    let mut random = Random::new(24);
    for turn in 0..24 {
        let (len, longest) = match turn % 4 {
            0 => (LIMIT, 2_000),
            1 => (random.below(LIMIT), 2_000),
            _ => (random.below(100), 100_000),
        };
        let text = texts::text(*random.choose(&KINDS), len, &mut random);
        any_lists(tally, &Sample::from(text.into_bytes()), longest, &mut random);
    }
}

fn no_list_anywhere(tally: &mut Tally) {
    tally.family("no list, at any pointer");
    for address in ADDRESSES {
        let (list, numbers, column) = (address as *const u32, address as *mut u8, address as *mut u32);
        for text in ["", "aéb"] {
            let ours = unsafe {
                let (text, len) = (text.as_ptr(), text.len());
                library::zulmyren_char_offsets_all(text, len, list, 0, list, 0, numbers, 0, column, 0, column, 0)
            };
            tally.case(tally::refusal(ours), ours != 0, || format!("ours {ours} on no list at {address:#x}"));
        }
    }
}

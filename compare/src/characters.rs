//! The calls on characters: well-formedness and letter count, beside `core::str`.

use crate::every;
use crate::library::{self, Count};
use crate::random::Random;
use crate::refusals::{ILL_FORMED, NOT_BOUNDARY, TOO_LONG};
use crate::samples::ADDRESSES;
use crate::tally::{self, hex, Report, Tally};
use crate::texts::{self, KINDS, LIMIT, OFFSETS, UNITS};
use std::str::from_utf8;

/// Values at both sides of every end of a range in Table 3-7.
const EDGES: [u8; 24] = [
    0x00, 0x7F, 0x80, 0x8F, 0x90, 0x9F, 0xA0, 0xBF, 0xC0, 0xC1, 0xC2, 0xDF, 0xE0, 0xE1, 0xEC, 0xED, 0xEE, 0xEF, 0xF0,
    0xF1, 0xF3, 0xF4, 0xF5, 0xFF,
];

pub fn compare(report: &mut Report) {
    report.call("zulmyren_well_formed", "core::str::from_utf8", |tally| {
        up_to_three_bytes(tally);
        four_bytes(tally);
        four_bytes_at_a_block_edge(tally);
        sequence_at_every_offset(tally);
        byte_at_every_offset(tally);
        every_length(tally);
        long_texts(tally);
        empty_text_anywhere(tally);
    });
    report.call("zulmyren_letter_count", "str::get and chars().count()", |tally| {
        count_in_two_bytes(tally);
        count_in_four_characters(tally);
        count_in_blocks(tally);
        count_in_long_texts(tally);
    });
}

fn well_formed(tally: &mut Tally, text: &[u8]) {
    let ours = library::well_formed(text);
    let core = from_utf8(text).is_ok();
    let answer = if ours { "well-formed" } else { "ill-formed" };
    tally.case(answer, ours != core, || format!("ours {ours}, core {core} on {}", hex(text)));
}

fn up_to_three_bytes(tally: &mut Tally) {
    tally.family("every text of up to 3 bytes");
    for len in 0..=3 {
        for number in 0..1_u32 << (8 * len) {
            well_formed(tally, &number.to_le_bytes()[..len]);
        }
    }
}

fn four_bytes(tally: &mut Tally) {
    tally.family("4 bytes: every first and second, the others at the edges of Table 3-7");
    for first in 0..=255 {
        for second in 0..=255 {
            for third in EDGES {
                for fourth in EDGES {
                    well_formed(tally, &[first, second, third, fourth]);
                }
            }
        }
    }
}

fn four_bytes_at_a_block_edge(tally: &mut Tally) {
    tally.family("4 bytes at the edges of Table 3-7, across the end of a block");
    for at in 60..=64 {
        let mut text = [b'a'; 160];
        for bytes in every::list(&EDGES, 4) {
            text[at..at + 4].copy_from_slice(&bytes);
            well_formed(tally, &text);
        }
    }
}

/// The first and last characters of Table 3-7's rows, what is just outside them, and characters that are cut short.
pub fn sequences() -> Vec<Vec<u8>> {
    let rows = "\u{0}\u{7F}\u{80}\u{7FF}\u{800}\u{FFF}\u{1000}\u{CFFF}\u{D000}\u{D7FF}\u{E000}\u{FFFF}\
        \u{10000}\u{3FFFF}\u{40000}\u{FFFFF}\u{100000}\u{10FFFF}";
    let outside: [&[u8]; 14] = [
        &[0x80],
        &[0xBF],
        &[0xC0, 0x80],
        &[0xC1, 0xBF],
        &[0xE0, 0x80, 0x80],
        &[0xE0, 0x9F, 0xBF],
        &[0xED, 0xA0, 0x80],
        &[0xED, 0xBF, 0xBF],
        &[0xF0, 0x80, 0x80, 0x80],
        &[0xF0, 0x8F, 0xBF, 0xBF],
        &[0xF4, 0x90, 0x80, 0x80],
        &[0xF5, 0x80, 0x80, 0x80],
        &[0xF8, 0x88, 0x80, 0x80, 0x80],
        &[0xFF],
    ];
    let whole: Vec<Vec<u8>> = rows.chars().map(|c| c.to_string().into_bytes()).collect();
    let cut = whole.iter().flat_map(|bytes| (1..bytes.len()).map(|len| bytes[..len].to_vec()));
    cut.chain(outside.map(<[u8]>::to_vec)).chain(whole.iter().cloned()).collect()
}

fn sequence_at_every_offset(tally: &mut Tally) {
    tally.family("a character, or a wrong or cut one, at every offset to 200, also at the text's end");
    for unit in UNITS {
        for offset in 0..=OFFSETS {
            for sequence in sequences() {
                let mut text = texts::repeated(unit, offset).into_bytes();
                text.extend(&sequence);
                let end = text.len();
                text.extend(texts::repeated(unit, 70).bytes());
                well_formed(tally, &text);
                for truncated in offset..=end {
                    well_formed(tally, &text[..truncated]);
                }
            }
        }
    }
}

fn byte_at_every_offset(tally: &mut Tally) {
    tally.family("every byte in the place of the one at every offset to 200");
    for unit in UNITS {
        let mut text = texts::repeated(unit, OFFSETS + 64).into_bytes();
        for offset in 0..=OFFSETS {
            let kept = text[offset];
            for byte in 0..=255 {
                text[offset] = byte;
                well_formed(tally, &text);
            }
            text[offset] = kept;
        }
    }
}

fn every_length(tally: &mut Tally) {
    tally.family("texts of every length to 600, beginning and ending anywhere");
    for unit in UNITS {
        let text = texts::repeated(unit, 600).into_bytes();
        for begin in 0..8 {
            for end in begin..=text.len() {
                well_formed(tally, &text[begin..end]);
            }
        }
    }
}

fn long_texts(tally: &mut Tally) {
    tally.family("texts of up to 70000 bytes, whole, with one byte damaged, and truncated");
    let mut random = Random::new(1);
    for _ in 0..400 {
        for kind in KINDS {
            let len = 1 + random.below(70_000);
            let mut text = texts::text(kind, len, &mut random).into_bytes();
            well_formed(tally, &text);
            for _ in 0..6 {
                well_formed(tally, &text[..random.below(len)]);
                let offset = random.below(len);
                let kept = std::mem::replace(&mut text[offset], random.byte());
                well_formed(tally, &text);
                text[offset] = kept;
            }
        }
    }
}

fn empty_text_anywhere(tally: &mut Tally) {
    tally.family("the empty text at any pointer");
    for address in ADDRESSES {
        let ours = unsafe { library::zulmyren_well_formed(address as *const u8, 0) };
        tally.case("well-formed", !ours, || format!("ours {ours} on the empty text at {address:#x}"));
    }
}

pub fn expected_count(text: &[u8], start: u32, end: u32) -> Count {
    let refused = |refusal| Count { refusal, count: 0 };
    if text.len() > LIMIT {
        return refused(TOO_LONG);
    }
    let Ok(text) = from_utf8(text) else {
        return refused(ILL_FORMED);
    };
    // `str::get` has no part for an end past the text or inside a character, nor for start > end.
    match text.get(start as usize..end as usize) {
        Some(part) => Count { refusal: 0, count: part.chars().count() as u32 },
        None => refused(NOT_BOUNDARY),
    }
}

fn letter_count(tally: &mut Tally, text: &[u8], start: usize, end: usize) {
    let (start, end) = (start as u32, end as u32);
    let ours = library::letter_count(text, start, end);
    let core = expected_count(text, start, end);
    tally.case(tally::refusal(ours.refusal), ours != core, || {
        format!("ours {ours:?}, core {core:?} on {start}..{end} of {}", hex(text))
    });
}

fn count_in_every_range(tally: &mut Tally, text: &[u8], last: usize) {
    for (start, end) in every::pair(last) {
        letter_count(tally, text, start, end);
    }
}

fn count_in_two_bytes(tally: &mut Tally) {
    tally.family("every text of up to 2 bytes, every range to 3");
    for len in 0..=2 {
        for number in 0..1_u32 << (8 * len) {
            count_in_every_range(tally, &number.to_le_bytes()[..len], 3);
        }
    }
}

fn count_in_four_characters(tally: &mut Tally) {
    tally.family("every text of up to 4 characters of 1 to 4 bytes, every range and far ends");
    for characters in every::list(&["", "a", "é", "漢", "😀"], 4) {
        let text = characters.concat().into_bytes();
        count_in_every_range(tally, &text, text.len() + 2);
        for far in [LIMIT, LIMIT + 1, 1 << 31, u32::MAX as usize] {
            letter_count(tally, &text, 0, far);
            letter_count(tally, &text, far, 0);
            letter_count(tally, &text, far, far);
        }
    }
}

fn count_in_blocks(tally: &mut Tally) {
    tally.family("every range of texts of 200 bytes");
    for unit in UNITS {
        count_in_every_range(tally, texts::repeated(unit, OFFSETS).as_bytes(), OFFSETS + 1);
    }
}

fn count_in_long_texts(tally: &mut Tally) {
    tally.family("any range of texts around the limit and of any length, whole and damaged");
    let mut random = Random::new(2);
    for turn in 0..600 {
        let kind = *random.choose(&KINDS);
        let len = if turn < 200 { LIMIT - 2 + turn % 5 } else { random.below(LIMIT + 1) };
        let text = texts::text(kind, len, &mut random);
        let mut damaged = text.clone().into_bytes();
        if len > 0 {
            damaged[random.below(len)] = random.byte();
        }
        letter_count(tally, text.as_bytes(), 0, len);
        for _ in 0..4 {
            let start = texts::any_boundary(&text, &mut random);
            let end = texts::any_boundary(&text, &mut random);
            letter_count(tally, text.as_bytes(), start.min(end), start.max(end));
            letter_count(tally, text.as_bytes(), start, end + 1);
            letter_count(tally, text.as_bytes(), random.below(len + 2), random.below(len + 2));
            letter_count(tally, &damaged, start.min(end), start.max(end));
        }
    }
}

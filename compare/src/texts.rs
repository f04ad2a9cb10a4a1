//! Texts to compare and to measure on.

use crate::random::Random;

#[derive(Clone, Copy, Debug)]
pub enum Kind {
    Ascii,
    /// Czech words: one and two bytes to a character.
    Mixed,
    Cjk,
    /// English words with an emoji of four bytes after every second, to measure on.
    Emoji,
    /// Scalar values of all four lengths, many at the ends of Table 3-7's rows.
    Any,
    /// Letters up to U+017F, many of them U+0130, among those of all scripts, to lowercase.
    Letters,
}

pub const KINDS: [Kind; 4] = [Kind::Ascii, Kind::Mixed, Kind::Cjk, Kind::Any];

/// What repeated texts are made of.
pub const UNITS: [&str; 6] = ["a", "é", "漢", "😀", "kůň ", "a漢é😀"];

/// The library reads blocks of 64 bytes: offsets up to here cover three of them and their edges.
pub const OFFSETS: usize = 200;

/// The largest length of a text (docs/RULES.md).
pub const LIMIT: usize = 65_535;

const ENGLISH: &str = "the warden rang nine bells at dusk and wrote down each peal in a small book before \
    walking home along the river where herons stood quietly among reeds Tuesday 14 rain";
const CZECH: &str = "příliš žluťoučký kůň úpěl ďábelské ódy a když řeka stoupla zvoník přešel můstek \
    zapsal déšť vítr sníh do sešitu ještě před večeří kos červenka havran tři dny";

/// The first and the last scalar value of each of Table 3-7's rows.
const ROWS: [(u32, u32); 9] = [
    (0x0, 0x7F),
    (0x80, 0x7FF),
    (0x800, 0xFFF),
    (0x1000, 0xCFFF),
    (0xD000, 0xD7FF),
    (0xE000, 0xFFFF),
    (0x1_0000, 0x3_FFFF),
    (0x4_0000, 0xF_FFFF),
    (0x10_0000, 0x10_FFFF),
];

/// A text of `len` bytes.
pub fn text(kind: Kind, len: usize, random: &mut Random) -> String {
    let english: Vec<&str> = ENGLISH.split_whitespace().collect();
    let czech: Vec<&str> = CZECH.split_whitespace().collect();
    let mut text = String::with_capacity(len + 32);
    while text.len() < len {
        match kind {
            Kind::Ascii => text.extend([*random.choose(&english), " "]),
            Kind::Mixed => text.extend([*random.choose(&czech), " "]),
            Kind::Cjk if random.below(12) == 0 => text.push('。'),
            Kind::Cjk => text.push(scalar(0x4E00, 0x9FA5, random)),
            Kind::Emoji if random.below(2) == 0 => text.extend([scalar(0x1_F600, 0x1_F64F, random), ' ']),
            Kind::Emoji => text.extend([*random.choose(&english), " "]),
            Kind::Any => text.push(any_scalar(random)),
            Kind::Letters => text.push(any_letter(random)),
        }
    }
    cut(text, len)
}

pub fn any_scalar(random: &mut Random) -> char {
    let &(first, last) = random.choose(&ROWS);
    match random.below(4) {
        0 => scalar(first, first, random),
        1 => scalar(last, last, random),
        _ => scalar(first, last, random),
    }
}

fn any_letter(random: &mut Random) -> char {
    match random.below(8) {
        0 => 'İ',
        1 => any_scalar(random),
        2 => scalar(0x180, 0x24FF, random),
        _ => scalar(0, 0x17F, random),
    }
}

fn scalar(first: u32, last: u32, random: &mut Random) -> char {
    char::from_u32(first + random.below((last - first + 1) as usize) as u32).expect("a row has no surrogates")
}

/// `len` bytes of `unit`, again and again.
pub fn repeated(unit: &str, len: usize) -> String {
    cut(unit.repeat(len / unit.len() + 1), len)
}

/// The first `len` bytes; a character that does not fit becomes ASCII.
fn cut(mut text: String, len: usize) -> String {
    text.truncate(boundary_before(&text, len));
    while text.len() < len {
        text.push('x');
    }
    text
}

/// The last boundary that is at most `at`.
pub fn boundary_before(text: &str, at: usize) -> usize {
    (0..=at).rev().find(|&i| text.is_char_boundary(i)).expect("0 is a boundary")
}

/// A boundary anywhere in the text.
pub fn any_boundary(text: &str, random: &mut Random) -> usize {
    boundary_before(text, random.below(text.len() + 1))
}

//! What several comparisons take: notes, texts and fillers to compare on, and ways to damage a note.

use crate::note::{offset, Note, Offset};
use crate::random::Random;
use crate::texts::{self, KINDS, LIMIT};
use std::iter::repeat_n;
use tokenizers::normalizer::Range;
use tokenizers::NormalizedString;

pub const FILLERS: [&str; 5] = ["", "x", "é", "**", "日x"];

/// Nothing may be read or written at any of these: they are passed with length 0.
pub const ADDRESSES: [usize; 4] = [0, 4, 8, usize::MAX - 3];

/// A text up to the limit, mostly a short one, and up to 5 characters out of it.
pub fn text_and_literal(turn: usize, random: &mut Random) -> (String, String) {
    let len = 1 + random.below(if turn.is_multiple_of(20) { LIMIT } else { 400 });
    let text = texts::text(*random.choose(&KINDS), len, random);
    let at = texts::any_boundary(&text, random);
    let literal = text[at..].chars().take(random.below(6)).collect();
    (text, literal)
}

/// Any text up to a length, and the same with one byte damaged.
pub fn whole_and_damaged(longest: usize, random: &mut Random) -> [Vec<u8>; 2] {
    let len = random.below(longest + 1);
    let text = texts::text(*random.choose(&KINDS), len, random).into_bytes();
    let mut damaged = text.clone();
    if len > 0 {
        damaged[random.below(len)] = random.byte();
    }
    [text, damaged]
}

/// A length past the short ones: every so often the limit itself.
pub fn long_len(turn: usize, every: usize, random: &mut Random) -> usize {
    if turn.is_multiple_of(every) {
        LIMIT
    } else {
        300 + random.below(LIMIT - 300)
    }
}

/// Texts of so many equal letters, and one alignment for all.
pub fn uniform(original: usize, normalized: usize, (start, end): (Offset, Offset)) -> Note {
    Note {
        original: vec![b'o'; original],
        normalized: vec![b'n'; normalized],
        starts: vec![start; normalized],
        ends: vec![end; normalized],
        original_shift: 0,
    }
}

/// Every sound note of the two texts without a shift: boundaries in order, neither starts nor ends going back, one pair
/// a character.
pub fn sound_notes(original: &str, normalized: &str) -> Vec<Note> {
    let boundaries: Vec<Offset> =
        (0..=original.len()).filter(|&at| original.is_char_boundary(at)).map(offset).collect();
    let mut columns: Vec<Vec<(Offset, Offset)>> = vec![vec![]];
    for character in normalized.chars() {
        let mut longer = vec![];
        for alignments in &columns {
            let &(least_start, least_end) = alignments.last().unwrap_or(&(0, 0));
            for &start in boundaries.iter().filter(|&&start| start >= least_start) {
                for &end in boundaries.iter().filter(|&&end| end >= least_end.max(start)) {
                    longer.push([&alignments[..], &vec![(start, end); character.len_utf8()]].concat());
                }
            }
        }
        columns = longer;
    }
    let note = |alignments: Vec<(Offset, Offset)>| {
        let (starts, ends) = alignments.into_iter().unzip();
        Note { original: original.into(), normalized: normalized.into(), starts, ends, original_shift: 0 }
    };
    columns.into_iter().map(note).collect()
}

/// A note that the Rust original edited, on an original text of `len` bytes.
pub fn edited(len: usize, random: &mut Random) -> NormalizedString {
    let mut note = NormalizedString::from(texts::text(*random.choose(&KINDS), len, random));
    for _ in 0..1 + random.below(5) {
        edit(&mut note, random);
    }
    note
}

fn edit(note: &mut NormalizedString, random: &mut Random) {
    let piece: String = (0..random.below(5)).map(|_| texts::any_scalar(random)).collect();
    match random.below(6) {
        0 => replace(note, &piece, random),
        1 => {
            note.prepend(&piece);
        }
        2 => {
            note.append(&piece);
        }
        3 => slice(note, random),
        _ => edit_whole(note, &piece, random),
    }
}

fn replace(note: &mut NormalizedString, content: &str, random: &mut Random) {
    let at = texts::any_boundary(note.get(), random);
    let literal: String = note.get()[at..].chars().take(1 + random.below(2)).collect();
    note.replace(literal.as_str(), content).expect("a literal is a regular expression");
}

fn slice(note: &mut NormalizedString, random: &mut Random) {
    let original = random.below(2) == 0;
    let text = if original { note.get_original() } else { note.get() };
    let (one, other) = (texts::any_boundary(text, random), texts::any_boundary(text, random));
    let range = one.min(other)..one.max(other);
    let slice = note.slice(if original { Range::Original(range) } else { Range::Normalized(range) });
    if let Some(slice) = slice {
        *note = slice;
    }
}

fn edit_whole(note: &mut NormalizedString, piece: &str, random: &mut Random) {
    // Where the original's range does not reach the first normalized byte, these edits read past their range and panic.
    if note.convert_offsets(Range::Original(..)) != Some(0..note.len()) {
        return;
    }
    let other = piece.chars().next().unwrap_or('é');
    let modulus = 2 + random.below(5) as u32;
    let chosen = |c: char| (c as u32).is_multiple_of(modulus);
    match random.below(4) {
        0 => note.filter(|c| !chosen(c)),
        1 => note.map(|c| if chosen(c) { other } else { c }),
        2 => note.lowercase(),
        _ => note.uppercase(),
    };
}

/// Two texts with any alignments that are sound, and any shift that the limit allows.
pub fn scattered(original: String, normalized: String, random: &mut Random) -> NormalizedString {
    let characters = normalized.chars().count();
    let starts = sorted_boundaries(&original, characters, random);
    let ends = sorted_boundaries(&original, characters, random);
    let alignments = normalized
        .chars()
        .zip(starts.into_iter().zip(ends))
        .flat_map(|(c, (start, end))| repeat_n((start, end.max(start)), c.len_utf8()))
        .collect();
    let shift = random.below(LIMIT + 1 - original.len());
    NormalizedString::of_fields(original, normalized, alignments, shift)
}

/// The starting note of a text, or one with any alignments: mostly the first of them is not empty.
pub fn lettered(text: String, random: &mut Random) -> NormalizedString {
    if random.below(2) == 0 {
        return text.into();
    }
    let len = random.below(LIMIT.min(2 * text.len()) + 1);
    let original = texts::text(*random.choose(&KINDS), len, random);
    let note = scattered(original, text, random);
    match random.below(4) {
        0 => note,
        _ => without_head(note),
    }
}

/// The same with a first alignment that is not empty, where the transcript is not.
fn without_head(note: NormalizedString) -> NormalizedString {
    let first = |text: &str| text.chars().next().map_or(0, char::len_utf8);
    let (character, bytes) = (first(note.get_original()), first(note.get()));
    let alignment =
        |(i, &(start, end)): (usize, &(usize, usize))| (if i < bytes { 0 } else { start }, end.max(character));
    let alignments = note.alignments().iter().enumerate().map(alignment).collect();
    NormalizedString::of_fields(note.get_original().into(), note.get().into(), alignments, note.original_shift())
}

fn sorted_boundaries(text: &str, count: usize, random: &mut Random) -> Vec<usize> {
    let mut boundaries: Vec<usize> = (0..count).map(|_| texts::any_boundary(text, random)).collect();
    boundaries.sort();
    boundaries
}

/// A note of one of the three makes, on an original text of `len` bytes.
pub fn any(len: usize, random: &mut Random) -> NormalizedString {
    let (kind, other) = (*random.choose(&KINDS), *random.choose(&KINDS));
    match random.below(3) {
        0 => texts::text(kind, len, random).into(),
        1 => edited(len, random),
        _ => {
            let normalized_len = random.below(LIMIT.min(2 * len) + 1);
            let original = texts::text(kind, len, random);
            let normalized = texts::text(other, normalized_len, random);
            scattered(original, normalized, random)
        }
    }
}

/// A change at one normalized byte, by name. Some leave the note sound.
pub type DamageAt = (&'static str, fn(&mut Note, usize));

/// The note with each damage that needs no byte, by name.
pub fn damaged(note: &Note) -> impl Iterator<Item = (&'static str, Note)> + '_ {
    DAMAGES.into_iter().map(|(name, damage)| {
        let mut damaged = note.clone();
        damage(&mut damaged);
        (name, damaged)
    })
}

/// The note with each damage at a byte, by name.
pub fn damaged_at(note: &Note, offset: usize) -> impl Iterator<Item = (&'static str, Note)> + '_ {
    DAMAGES_AT.into_iter().map(move |(name, damage)| {
        let mut damaged = note.clone();
        damage(&mut damaged, offset);
        (name, damaged)
    })
}

pub const DAMAGES_AT: [DamageAt; 24] = [
    ("start + 1", |note, i| add(&mut note.starts[i..=i], 1)),
    ("start - 1", |note, i| add(&mut note.starts[i..=i], MINUS_ONE)),
    ("end + 1", |note, i| add(&mut note.ends[i..=i], 1)),
    ("end - 1", |note, i| add(&mut note.ends[i..=i], MINUS_ONE)),
    ("starts + 1 from here on", |note, i| add(&mut note.starts[i..], 1)),
    ("starts - 1 from here on", |note, i| add(&mut note.starts[i..], MINUS_ONE)),
    ("ends + 1 from here on", |note, i| add(&mut note.ends[i..], 1)),
    ("ends - 1 from here on", |note, i| add(&mut note.ends[i..], MINUS_ONE)),
    ("starts + 1 up to here", |note, i| add(&mut note.starts[..=i], 1)),
    ("ends - 1 up to here", |note, i| add(&mut note.ends[..=i], MINUS_ONE)),
    ("start 0", |note, i| note.starts[i] = 0),
    ("start the largest number", |note, i| note.starts[i] = Offset::MAX),
    ("end 0", |note, i| note.ends[i] = 0),
    ("end the largest number", |note, i| note.ends[i] = Offset::MAX),
    ("start the end", |note, i| note.starts[i] = note.ends[i]),
    ("end the start", |note, i| note.ends[i] = note.starts[i]),
    ("start and end swapped", |note, i| std::mem::swap(&mut note.starts[i], &mut note.ends[i])),
    ("start swapped with the next", |note, i| swap_with_next(&mut note.starts, i)),
    ("end swapped with the next", |note, i| swap_with_next(&mut note.ends, i)),
    ("all alignments from here on this one", |note, i| {
        repeat_from(&mut note.starts, i);
        repeat_from(&mut note.ends, i);
    }),
    ("normalized byte FF", |note, i| note.normalized[i] = 0xFF),
    ("normalized byte 80", |note, i| note.normalized[i] = 0x80),
    ("original byte FF", |note, i| set_byte(&mut note.original, i, 0xFF)),
    ("original byte 80", |note, i| set_byte(&mut note.original, i, 0x80)),
];

/// A change that needs no byte to be there.
pub type Damage = (&'static str, fn(&mut Note));

pub const DAMAGES: [Damage; 11] = [
    ("starts one shorter", |note| _ = note.starts.pop()),
    ("ends one shorter", |note| _ = note.ends.pop()),
    ("starts one longer", |note| note.starts.push(0)),
    ("ends one longer", |note| note.ends.push(0)),
    ("original one shorter", |note| _ = note.original.pop()),
    ("normalized one shorter", |note| _ = note.normalized.pop()),
    ("original cut short by a lead byte", |note| note.original.push(0xC3)),
    ("shift at the limit", |note| note.original_shift = shift_limit(note)),
    ("shift past the limit", |note| note.original_shift = shift_limit(note) + 1),
    ("shift 4294967295", |note| note.original_shift = u32::MAX),
    ("shift and length 4294967296", |note| note.original_shift = (note.original.len() as u32).wrapping_neg()),
];

const MINUS_ONE: Offset = Offset::MAX;

fn add(numbers: &mut [Offset], step: Offset) {
    for number in numbers {
        *number = number.wrapping_add(step);
    }
}

fn swap_with_next(column: &mut [Offset], i: usize) {
    if i + 1 < column.len() {
        column.swap(i, i + 1);
    }
}

fn repeat_from(column: &mut [Offset], i: usize) {
    let value = column[i];
    column[i..].fill(value);
}

fn set_byte(text: &mut [u8], i: usize, byte: u8) {
    if let Some(place) = text.get_mut(i) {
        *place = byte;
    }
}

fn shift_limit(note: &Note) -> u32 {
    LIMIT.saturating_sub(note.original.len()) as u32
}

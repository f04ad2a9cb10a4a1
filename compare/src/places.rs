//! Place lists: their bytes, a second judge of them written from docs/RULES.md, and lists to compare on.

use crate::note::Note;
use crate::random::Random;
use crate::texts::{self, Kind, LIMIT};
use std::cell::Cell;
use std::iter::once;
use tokenizers::pattern::Pattern;
use tokenizers::{NormalizedString, Offsets, Result};

/// As the Rust original has it: start and end, and whether it is matched.
pub type Place = (Offsets, bool);

/// A list from outside: the pattern hands it out, whatever the text is.
pub struct Given(pub Vec<Place>);

impl Pattern for Given {
    fn find_matches(&self, _inside: &str) -> Result<Vec<Place>> {
        Ok(self.0.clone())
    }
}

/// The same without a copy, for one use.
pub struct Handed(Cell<Vec<Place>>);

impl Handed {
    pub fn new(places: &[Place]) -> Self {
        Handed(Cell::new(places.to_vec()))
    }
}

impl Pattern for Handed {
    fn find_matches(&self, _inside: &str) -> Result<Vec<Place>> {
        Ok(self.0.take())
    }
}

/// The commands of a list. An end that two bytes do not hold, in a text that is refused for it, becomes the largest.
pub fn bytes(places: &[Place]) -> Vec<u8> {
    let operand = |at: usize| u16::try_from(at).unwrap_or(u16::MAX).to_le_bytes();
    let command = |&((start, end), matched): &Place| {
        let ([s, t], [e, f]) = (operand(start), operand(end));
        [if matched { 12 } else { 11 }, s, t, e, f]
    };
    places.iter().flat_map(command).collect()
}

/// The places of a list's commands, where none is unknown or cut.
pub fn read(list: &[u8]) -> Option<Vec<Place>> {
    let place = |command: &[u8]| match *command {
        [number @ (11 | 12), s, t, e, f] => {
            let (start, end) = (u16::from_le_bytes([s, t]), u16::from_le_bytes([e, f]));
            Some(((start.into(), end.into()), number == 12))
        }
        _ => None,
    };
    list.chunks(5).map(place).collect()
}

/// Whether the places cover the text in order, and none ends before it starts or is inside a character.
pub fn cover(text: &str, places: &[Place]) -> bool {
    let starts = places.iter().map(|&((start, _), _)| start);
    let ends = places.iter().map(|&((_, end), _)| end);
    // The first starts at 0, each where the last ended, and the final end is the length.
    let contiguous = once(0).chain(ends).eq(starts.chain(once(text.len())));
    // `str::get` is there for start ≤ end ≤ length, both on character boundaries, and for nothing else.
    contiguous && places.iter().all(|&((start, end), _)| text.get(start..end).is_some())
}

/// How many bytes the places give beside a filler of `filler` bytes.
pub fn size(places: &[Place], filler: usize) -> u64 {
    places.iter().map(|&((start, end), matched)| if matched { filler } else { end - start } as u64).sum()
}

/// Every list that covers the text, with up to `empty` empty places anywhere.
pub fn every(text: &str, empty: usize) -> Vec<Vec<Place>> {
    let mut lists = vec![];
    go_on(text, empty, &mut vec![], &mut lists);
    lists
}

/// Every list of up to `most` places that covers the text.
pub fn up_to(text: &str, most: usize) -> Vec<Vec<Place>> {
    every(text, most).into_iter().filter(|places| places.len() <= most).collect()
}

fn go_on(text: &str, empty: usize, begun: &mut Vec<Place>, lists: &mut Vec<Vec<Place>>) {
    let at = begun.last().map_or(0, |&((_, end), _)| end);
    if at == text.len() {
        lists.push(begun.clone());
    }
    for end in (at..=text.len()).filter(|&end| text.is_char_boundary(end)) {
        if end == at && empty == 0 {
            continue;
        }
        for matched in [false, true] {
            begun.push(((at, end), matched));
            go_on(text, empty - usize::from(end == at), begun, lists);
            begun.pop();
        }
    }
}

/// A list of `cuts` + 1 places anywhere; some of them are empty.
pub fn any(text: &str, cuts: usize, random: &mut Random) -> Vec<Place> {
    let mut ends: Vec<usize> = (0..cuts).map(|_| texts::any_boundary(text, random)).collect();
    ends.push(text.len());
    ends.sort();
    let one_matched_in = 1 + random.below(4);
    of_ends(ends, || random.below(one_matched_in) == 0)
}

/// The places that end at these, one after the other.
fn of_ends(ends: Vec<usize>, mut matched: impl FnMut() -> bool) -> Vec<Place> {
    let starts: Vec<usize> = once(0).chain(ends.iter().copied()).collect();
    starts.into_iter().zip(ends).map(|offsets| (offsets, matched())).collect()
}

/// Places of a text that end within two of each multiple of 64, any of them matched.
pub fn near_blocks(text: &str, random: &mut Random) -> Vec<Place> {
    let near = |block: usize| texts::boundary_before(text, (64 * block + random.below(5) - 2).min(text.len()));
    let ends = (1..=text.len() / 64).map(near).chain([text.len()]).collect();
    of_ends(ends, || random.below(2) == 0)
}

/// Notes and lists whose bytes are damaged.
pub fn lists_to_damage() -> Vec<(Note, Vec<u8>)> {
    let mut lists = vec![];
    for text in ["", "a", "ab", "aéb"] {
        for places in every(text, 1) {
            lists.push((NormalizedString::from(text), places));
        }
    }
    let mut random = Random::new(43);
    let long = [(20_000, 3, Kind::Mixed), (LIMIT, 4, Kind::Ascii), (LIMIT, 3, Kind::Any)];
    let short = texts::KINDS.into_iter().flat_map(|kind| [(200, 9, kind), (600, 14, kind)]);
    for (len, cuts, kind) in short.chain(long) {
        let text = texts::text(kind, len, &mut random);
        let places = any(&text, cuts, &mut random);
        lists.push((NormalizedString::from(text), places));
    }
    lists.iter().map(|(note, places)| (Note::from(note), bytes(places))).collect()
}

const BYTES: [u8; 12] = [0, 1, 2, 4, 10, 11, 12, 13, 0x7F, 0x80, 0xFE, 0xFF];

/// A list with every byte changed, cut off, added, left out, and every place left out, doubled, swapped; each in words.
pub fn damaged(list: &[u8]) -> Vec<(String, Vec<u8>)> {
    let mut lists = vec![("whole".into(), list.to_vec())];
    let mut damaged = |made: &str, i: usize, list: Vec<u8>| lists.push((format!("{made} at {i}"), list));
    let every: Vec<u8> = (0..=255).collect();
    let values = if list.len() > 15 { &BYTES[..] } else { &every };
    for i in 0..list.len() {
        let near = [list[i].wrapping_sub(1), list[i].wrapping_add(1), list[i] ^ 0x80, list[i] ^ 1];
        for &value in values.iter().chain(&near) {
            let mut changed = list.to_vec();
            changed[i] = value;
            damaged("changed", i, changed);
        }
        damaged("cut", i, list[..i].to_vec());
        damaged("left out", i, [&list[..i], &list[i + 1..]].concat());
    }
    for i in 0..=list.len() {
        let values = if i == list.len() { &every[..] } else { &BYTES };
        for &value in values {
            damaged("added", i, [&list[..i], &[value], &list[i..]].concat());
        }
    }
    for i in (0..list.len()).step_by(5) {
        let (before, place, after) = (&list[..i], &list[i..i + 5], &list[i + 5..]);
        damaged("place left out", i, [before, after].concat());
        damaged("place doubled", i, [before, place, place, after].concat());
        if let Some((next, after)) = after.split_at_checked(5) {
            damaged("places swapped", i, [before, next, place, after].concat());
        }
    }
    lists
}

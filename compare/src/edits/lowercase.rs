//! Lowercase, character by character, beside `char::to_lowercase` and UnicodeData.txt. Above U+017F the Rust changes
//! letters that the library leaves. Which these are, `char::to_lowercase` says; a newer Rust has more of them.

use super::edit::{check_sound, Change, Edit};
use crate::library::Cleared;
use crate::note::Note;
use crate::program::variable;
use crate::random::Random;
use crate::replace::{ample, rooms};
use crate::samples;
use crate::tally::{self, Tally};
use std::collections::BTreeMap;
use tokenizers::NormalizedString;

/// The last character that the library's table has.
const LAST: char = '\u{17F}';

/// Whether the Rust's `lowercase` changes a letter that the library leaves.
pub fn only_the_rust_changes(character: char) -> bool {
    character > LAST && !character.to_lowercase().eq([character])
}

/// All characters in a character's place, by docs/RULES.md.
pub fn images(character: char) -> Vec<char> {
    if character > LAST {
        vec![character]
    } else {
        character.to_lowercase().collect()
    }
}

/// The changes that the Rust builds of a text, with these images: the first replaces, a second one is added.
pub fn changes(text: &str) -> Vec<Change> {
    let change = |(i, image): (usize, char)| (image, isize::from(i > 0));
    text.chars().flat_map(|character| images(character).into_iter().enumerate().map(change)).collect()
}

pub fn compare(tally: &mut Tally) {
    entries(tally);
    above_the_table(tally);
    alone(tally);
    between_two(tally);
}

fn fresh(text: &str) -> Note {
    Note::from(&NormalizedString::from(text))
}

fn table() -> impl Iterator<Item = char> {
    '\0'..=LAST
}

/// The characters that UnicodeData.txt has by name, with the simple lowercase mapping, which is field 13, or themselves
/// where that is empty.
fn unicode_data() -> BTreeMap<char, char> {
    let path = variable("UNICODE_DATA");
    let file = std::fs::read_to_string(&path).unwrap_or_else(|error| panic!("{path}: {error}"));
    let character = |hex: &str| u32::from_str_radix(hex, 16).ok().and_then(char::from_u32);
    let entry = |line: &str| {
        let fields: Vec<&str> = line.split(';').collect();
        let code = character(fields[0])?;
        Some((code, character(fields[13]).unwrap_or(code)))
    };
    file.lines().filter_map(entry).collect()
}

fn entries(tally: &mut Tally) {
    let data = unicode_data();
    tally.family("each of the 384 entries of the table, as the call answers it, beside UnicodeData.txt");
    for character in table() {
        let added = (character == 'İ').then_some('\u{307}');
        answers(tally, character, data.get(&character).copied().into_iter().chain(added).collect());
    }
    tally.family("each of the 384 entries of the table, as the call answers it, beside char::to_lowercase");
    for character in table() {
        answers(tally, character, character.to_lowercase().collect());
    }
    tally.family("each letter above U+017F that UnicodeData.txt changes: it stays");
    for (&character, _) in data.iter().filter(|&(&character, &entry)| character > LAST && character != entry) {
        answers(tally, character, vec![character]);
    }
}

/// What is said to be in the place of a character that is alone, and what the library puts there.
fn answers(tally: &mut Tally, character: char, said: Vec<char>) {
    let (answer, left) = Edit::Lowercase.answer(&fresh(character.encode_utf8(&mut [0; 4])), 9);
    let ours: Vec<char> = String::from_utf8_lossy(&left.normalized).chars().collect();
    tally.case(tally::refusal(answer.refusal), answer.refusal != 0 || ours != said, || {
        format!("ours {answer:?} with {ours:?}, said {said:?}, on {character:?}")
    });
}

fn above_the_table(tally: &mut Tally) {
    tally.family("each letter above U+017F that the Rust changes: it stays");
    let set = || ('\0'..=char::MAX).filter(|&character| only_the_rust_changes(character));
    for character in set() {
        answers(tally, character, vec![character]);
    }
    tally.family("each letter above U+017F that the Rust changes becomes one character there, not several");
    for character in set() {
        let images: Vec<char> = character.to_lowercase().collect();
        tally.case("one character in the Rust", images.len() != 1, || format!("{character:?} becomes {images:?}"));
    }
}

fn alone(tally: &mut Tally) {
    tally.family("every character alone");
    for character in '\0'..=char::MAX {
        check_sound(tally, &fresh(character.encode_utf8(&mut [0; 4])), &Edit::Lowercase, ample);
    }
}

fn between_two(tally: &mut Tally) {
    tally.family("each of the 384 after and before nothing and characters of 1 to 4 bytes, any alignments, in 9 rooms");
    let mut random = Random::new(97);
    let neighbours = ["", "B", "b", "É", "İ", "漢", "😀"];
    for character in table() {
        for before in neighbours {
            for after in neighbours {
                let text = format!("{before}{character}{after}");
                check_sound(tally, &fresh(&text), &Edit::Lowercase, rooms);
                let note = samples::lettered(text, &mut random);
                check_sound(tally, &Note::from(&note), &Edit::Lowercase, rooms);
            }
        }
    }
}

/// Once more changes nothing.
pub fn once_more(tally: &mut Tally, left: &Note) {
    let (answer, again) = Edit::Lowercase.answer(left, left.normalized.len());
    let said = Cleared { refusal: 0, before_len: 0, len: left.normalized.len() };
    let same = again.normalized == left.normalized && again.alignments().eq(left.alignments());
    tally.case(tally::refusal(answer.refusal), answer != said || !same, || format!("{answer:?}, {again}, on {left}"));
}

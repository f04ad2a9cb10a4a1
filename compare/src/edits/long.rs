//! Edits of longer notes: of any make, of every length to 300 and around multiples of a block's, up to the limit, and
//! results around it.

use super::edit::{bytes, check, Change, Edit, MOST_REMOVED};
use super::lowercase::only_the_rust_changes;
use crate::library::Cleared;
use crate::note::Note;
use crate::random::Random;
use crate::refusals::NO_ROOM;
use crate::replace::{ample, rooms};
use crate::samples;
use crate::tally::{self, Tally};
use crate::texts::{self, Kind, LIMIT, UNITS};
use tokenizers::normalizer::Range;
use tokenizers::NormalizedString;

/// An edit for a note.
type Any = fn(&NormalizedString, &mut Random) -> Edit;

/// All eight, by turns.
pub const EVERY: [Any; 8] = [
    any_range,
    any_script,
    any_map,
    any_filter,
    |_, random| Edit::Append(any_string(random).into()),
    |_, random| Edit::Prepend(any_string(random).into()),
    |_, _| Edit::Clear,
    |_, _| Edit::Lowercase,
];

pub fn any_ranges(tally: &mut Tally) {
    of_any_make(tally, any_range, 81);
    at_every_offset(tally);
}

pub fn any_scripts(tally: &mut Tally) {
    of_any_make(tally, any_script, 82);
}

pub fn any_codes(tally: &mut Tally) {
    of_any_make(tally, any_map, 83);
}

pub fn any_flags(tally: &mut Tally) {
    of_any_make(tally, any_filter, 84);
}

pub fn any_appended(tally: &mut Tally) {
    of_any_make(tally, EVERY[4], 85);
}

pub fn any_prepended(tally: &mut Tally) {
    of_any_make(tally, EVERY[5], 86);
}

pub fn any_clear(tally: &mut Tally) {
    of_any_make(tally, EVERY[6], 87);
}

pub fn any_letters(tally: &mut Tally) {
    of_any_make(tally, EVERY[7], 89);
    letters_at_every_offset(tally);
    tally.family("letters of all scripts but those that only the Rust changes, up to the limit, in 9 rooms");
    of_letters(tally, |character| !only_the_rust_changes(character), 98);
    tally.family("letters of all scripts, up to the limit, in 9 rooms");
    of_letters(tally, |_| true, 99);
    dotted(tally);
}

fn of_any_make(tally: &mut Tally, any: Any, seed: u64) {
    let mut random = Random::new(seed);
    tally.family("notes of any make to 300 bytes, in 9 rooms");
    for _ in 0..8_000 {
        let len = random.below(300);
        let note = samples::any(len, &mut random);
        check(tally, &Note::from(&note), &any(&note, &mut random), rooms);
    }
    tally.family("starting notes of every length to 300, and of up to the limit around multiples of 64, in 9 rooms");
    let around = [512, 4_096, 16_384, 32_768, LIMIT / 64 * 64, LIMIT];
    let lens = (0..=300).chain(around.into_iter().flat_map(|len| [len - 1, len, (len + 1).min(LIMIT)]));
    for len in lens {
        for unit in UNITS {
            let note = NormalizedString::from(texts::repeated(unit, len));
            check(tally, &Note::from(&note), &any(&note, &mut random), rooms);
        }
    }
    tally.family("notes of any make up to the limit, in 9 rooms");
    for turn in 0..90 {
        let len = samples::long_len(turn, 3, &mut random);
        let note = samples::any(len, &mut random);
        check(tally, &Note::from(&note), &any(&note, &mut random), rooms);
    }
}

/// Any characters with changes that this many characters mostly suffice for, or not by far.
fn any_changes(characters: usize, random: &mut Random) -> Vec<Change> {
    let mut left = characters;
    let added = 1 + random.below(6);
    let all = [random.below(6), random.below(60), characters, characters + random.below(characters / 4 + 2)];
    let commands = *random.choose(&all);
    let wasteful = random.below(8) == 0;
    let alike = texts::any_scalar(random);
    let mixed = random.below(4) > 0;
    let mut changes = vec![];
    for _ in 0..commands {
        let change = match random.below(8) {
            turn if turn < added && (left == 0 || turn == 0) => 1,
            7 if left > 3 => -(1 + random.below(3) as isize),
            6 if random.below(40) == 0 => -[1, 16, 300, MOST_REMOVED][random.below(4)],
            _ if left == 0 && !wasteful => 1,
            _ => 0,
        };
        let character = if mixed { texts::any_scalar(random) } else { alike };
        left = if change > 0 { left } else { left.saturating_sub(1 + -change as usize) };
        changes.push((character, change));
    }
    changes
}

fn any_offset(characters: usize, random: &mut Random) -> u32 {
    let far = [characters, characters + 1, u32::MAX as usize, random.below(characters + 1)];
    let near = random.below(3);
    if random.below(3) == 0 {
        *random.choose(&far) as u32
    } else {
        near as u32
    }
}

/// Mostly between boundaries of its text, else anything.
fn any_range(note: &NormalizedString, random: &mut Random) -> Edit {
    let of_original = random.below(2) == 0;
    let text = if of_original { note.get_original() } else { note.get() };
    let (one, other) = (texts::any_boundary(text, random), texts::any_boundary(text, random));
    let (start, end) = match random.below(8) {
        0 => (random.below(text.len() + 3), random.below(text.len() + 3)),
        1 => (one, one),
        2 => (0, text.len()),
        3 => (one, text.len()),
        _ => (one.min(other), one.max(other)),
    };
    let range = if of_original { Range::Original(start..end) } else { Range::Normalized(start..end) };
    let characters = match range {
        Range::Normalized(cleaned) => note.get().get(cleaned),
        Range::Original(_) => note.convert_offsets(range).and_then(|cleaned| note.get().get(cleaned)),
    };
    let characters = characters.map_or(3, |part| part.chars().count());
    let offset = any_offset(characters, random);
    let left = characters.saturating_sub(offset as usize);
    Edit::TransformRange((of_original, start as u32, end as u32), bytes(&any_changes(left, random)), offset)
}

fn any_script(note: &NormalizedString, random: &mut Random) -> Edit {
    let cleaned = note.convert_offsets(Range::Original(0..note.len_original()));
    let characters = cleaned.and_then(|cleaned| note.get().get(cleaned)).map_or(3, |part| part.chars().count());
    let offset = any_offset(characters, random);
    let left = characters.saturating_sub(offset as usize);
    Edit::Transform(bytes(&any_changes(left, random)), offset)
}

/// All by one character, by any, or some by one.
fn any_map(note: &NormalizedString, random: &mut Random) -> Edit {
    let (way, other) = (random.below(3), texts::any_scalar(random));
    let new = |character: char| match way {
        0 => other,
        1 => texts::any_scalar(random),
        _ if (character as u32).is_multiple_of(3) => other,
        _ => character,
    };
    Edit::Map(note.get().chars().map(new).map(u32::from).collect())
}

/// All kept, none, one in so many dropped or kept, or runs of both.
fn any_filter(note: &NormalizedString, random: &mut Random) -> Edit {
    let (way, one_in, value) = (random.below(6), 2 + random.below(9), 1 + random.below(255) as u8);
    let mut run = (false, 0);
    let flag = |_: char| {
        if run.1 == 0 {
            run = (!run.0, 1 + random.below(70));
        }
        run.1 -= 1;
        match way {
            0 => true,
            1 => false,
            2 => random.below(one_in) == 0,
            3 => random.below(one_in) > 0,
            _ => run.0,
        }
    };
    Edit::Filter(note.get().chars().map(flag).map(|kept| if kept { value } else { 0 }).collect())
}

fn any_string(random: &mut Random) -> String {
    let below = *random.choose(&[1, 8, 70, 300, 300, 2_000]);
    let len = random.below(below);
    texts::text(*random.choose(&texts::KINDS), len, random)
}

fn at_every_offset(tally: &mut Tally) {
    tally.family("a character replaced, added after, removed with the next, of every range of one at offsets to 200");
    let mut random = Random::new(88);
    for unit in UNITS {
        let text = texts::repeated(unit, 264);
        let scattered = samples::scattered(text.clone(), text.clone(), &mut random);
        for note in [NormalizedString::from(text.as_str()), scattered] {
            let note = Note::from(&note);
            let boundaries: Vec<usize> = (0..=264).filter(|&at| text.is_char_boundary(at)).collect();
            for ends in boundaries.windows(3).take_while(|ends| ends[0] <= texts::OFFSETS) {
                for new in ['x', 'é', '漢', '😀'] {
                    let scripts: [&[Change]; 4] = [&[(new, 0)], &[(new, 0), (new, 1)], &[(new, 1), (new, -1)], &[]];
                    for script in scripts {
                        for end in &ends[1..] {
                            let edit = Edit::TransformRange((false, ends[0] as u32, *end as u32), bytes(script), 0);
                            check(tally, &note, &edit, |len| vec![[len, len + 1, len + 2]]);
                        }
                    }
                }
            }
        }
    }
}

fn letters_at_every_offset(tally: &mut Tally) {
    tally.family("a letter at every offset to 200, among small ones and capitals");
    for unit in UNITS.iter().chain(&["A", "É", "İ", "aİ漢É"]) {
        for letter in ["A", "É", "İ", "Ÿ", "\u{212A}", "i\u{307}"] {
            for offset in 0..=texts::OFFSETS {
                let text = texts::repeated(unit, offset) + letter + &texts::repeated(unit, 70);
                let note = Note::from(&NormalizedString::from(text));
                check(tally, &note, &Edit::Lowercase, ample);
            }
        }
    }
}

/// Notes to 300 bytes and longer ones, whose cleaned texts have only letters that are kept.
fn of_letters(tally: &mut Tally, kept: fn(char) -> bool, seed: u64) {
    let mut random = Random::new(seed);
    for turn in 0..6_000 {
        let len = match turn % 60 {
            0 => samples::long_len(turn / 60, 4, &mut random),
            _ => random.below(300),
        };
        let mut text = texts::text(Kind::Letters, len, &mut random);
        text.retain(kept);
        let note = samples::lettered(text, &mut random);
        check(tally, &Note::from(&note), &Edit::Lowercase, rooms);
    }
}

/// U+0130, two bytes, becomes three.
fn dotted(tally: &mut Tally) {
    tally.family("21845 times U+0130 are taken, 21846 times are 9");
    for (times, refusal, len) in [(21_844, 0, LIMIT - 3), (21_845, 0, LIMIT), (21_846, NO_ROOM, 0)] {
        let note = Note::from(&NormalizedString::from("İ".repeat(times)));
        let (ours, said) = (Edit::Lowercase.answer(&note, LIMIT + 9).0, Cleared { refusal, before_len: 0, len });
        tally.case(tally::refusal(ours.refusal), ours != said, || format!("{ours:?}, said {said:?}, of {times}"));
        check(tally, &note, &Edit::Lowercase, rooms);
    }
    tally.family("U+0130 1 to 21000 times before, after and among others, results about the limit, in 9 rooms");
    for times in [1, 2, 100, 21_000] {
        for size in (LIMIT - 2..=LIMIT + 3).filter(|size| size - times <= LIMIT) {
            for unit in ["A", "É", "漢"] {
                let (dotted, others) = ("İ".repeat(times), texts::repeated(unit, size - 3 * times));
                let middle = texts::boundary_before(&others, others.len() / 2);
                let among = [&others[..middle], &dotted, &others[middle..]].concat();
                for text in [dotted.clone() + &others, others.clone() + &dotted, among] {
                    let note = Note::from(&NormalizedString::from(text));
                    check(tally, &note, &Edit::Lowercase, rooms);
                }
            }
        }
    }
}

pub fn around_the_limit(tally: &mut Tally) {
    tally.family(
        "results about the limit and about twice it, put in, put beside and in the place of others, in 9 rooms",
    );
    for size in (LIMIT - 2..=LIMIT + 3).chain([2 * LIMIT + 5]) {
        for unit in ["a", "é", "漢", "😀"] {
            let note = Note::from(&NormalizedString::from(texts::repeated(unit, 1_200)));
            let string = texts::repeated(unit, size - 1_200);
            let added: Vec<Change> = string.chars().map(|character| (character, 1)).collect();
            check(tally, &note, &Edit::Append(string.clone().into()), rooms);
            check(tally, &note, &Edit::Prepend(string.clone().into()), rooms);
            check(tally, &note, &Edit::TransformRange((false, 600, 600), bytes(&added), 0), rooms);
            check(tally, &note, &Edit::TransformRange((true, 600, 600), bytes(&added), 7), rooms);
            let all: Vec<Change> = texts::repeated(unit, size).chars().map(|character| (character, 1)).collect();
            check(tally, &note, &Edit::Transform(bytes(&all), 0), rooms);
            check(tally, &note, &Edit::TransformRange((false, 0, 1_200), bytes(&all), u32::MAX), rooms);
        }
        grown(tally, size);
    }
    tally.family("strings and scripts past the limit on the empty text, and notes at the limit that stay or shrink");
    let nothing = Note::from(&NormalizedString::from(""));
    for len in [LIMIT - 1, LIMIT, LIMIT + 1, LIMIT + 2, 2 * LIMIT + 2, 200_000] {
        let string = texts::repeated("a漢é😀", len);
        let added: Vec<Change> = string.chars().map(|character| (character, 1)).collect();
        for string in [string.into_bytes(), "x".repeat(len).into()] {
            check(tally, &nothing, &Edit::Append(string.clone()), rooms);
            check(tally, &nothing, &Edit::Prepend(string), rooms);
        }
        check(tally, &nothing, &Edit::Transform(bytes(&added), 0), rooms);
    }
    full(tally);
}

/// 50,000 letters, so many of them replaced by longer ones that the result has this size.
fn grown(tally: &mut Tally, size: usize) {
    let text = "a".repeat(50_000);
    let note = Note::from(&NormalizedString::from(text.as_str()));
    for longer in ['é', '漢', '😀'] {
        let more = longer.len_utf8() - 1;
        let (times, rest) = ((size - text.len()) / more, (size - text.len()) % more);
        if times >= text.len() {
            continue;
        }
        let last = ['b', 'é', '漢'][rest];
        let new: Vec<char> = (0..text.len())
            .map(|i| match i {
                0 => last,
                _ if i <= times => longer,
                _ => 'b',
            })
            .collect();
        let changes: Vec<Change> = new.iter().map(|&character| (character, 0)).collect();
        let backwards: Vec<u32> = new.iter().rev().map(|&character| character.into()).collect();
        check(tally, &note, &Edit::Map(new.iter().map(|&character| character.into()).collect()), rooms);
        check(tally, &note, &Edit::Map(backwards), rooms);
        check(tally, &note, &Edit::Transform(bytes(&changes), 0), rooms);
        check(tally, &note, &Edit::TransformRange((false, 0, 50_000), bytes(&changes), 0), rooms);
        check(tally, &note, &Edit::TransformRange((true, 0, u32::MAX), bytes(&changes), 0), rooms);
    }
}

/// A note of the greatest length.
fn full(tally: &mut Tally) {
    for unit in ["a", "é", "漢", "😀", "a漢é😀"] {
        let text = texts::repeated(unit, LIMIT);
        let note = Note::from(&NormalizedString::from(text.as_str()));
        let count = text.chars().count();
        for string in ["", "x", "é"] {
            check(tally, &note, &Edit::Append(string.into()), rooms);
            check(tally, &note, &Edit::Prepend(string.into()), rooms);
        }
        check(tally, &note, &Edit::Filter(vec![1; count]), rooms);
        check(tally, &note, &Edit::Filter(vec![0; count]), rooms);
        for dropped in [0, 1, count / 2, count - 1] {
            let mut flags = vec![255; count];
            flags[dropped] = 0;
            check(tally, &note, &Edit::Filter(flags.clone()), rooms);
            check(tally, &note, &Edit::Filter(flags.iter().map(|flag| !flag).collect()), rooms);
        }
        check(tally, &note, &Edit::Map(text.chars().map(u32::from).collect()), rooms);
        check(tally, &note, &Edit::Map(vec!['x'.into(); count]), rooms);
        check(tally, &note, &Edit::Clear, rooms);
        check(tally, &note, &Edit::Lowercase, rooms);
        let last = bytes(&[('x', -MOST_REMOVED)]);
        check(tally, &note, &Edit::Transform(last.clone(), 0), rooms);
        check(tally, &note, &Edit::Transform(last, count as u32 - 1), rooms);
        check(tally, &note, &Edit::TransformRange((false, LIMIT as u32, LIMIT as u32), bytes(&[('x', 1)]), 0), rooms);
        check(tally, &note, &Edit::TransformRange((false, 0, LIMIT as u32), vec![], 0), rooms);
    }
}

//! Finding a literal beside `&str`'s `find_matches`, with `core::str`'s `match_indices` as the second implementation.

use crate::every;
use crate::guarded::Guarded;
use crate::library::{self, Written};
use crate::places::{self, Place};
use crate::random::Random;
use crate::refusals::{ILL_FORMED, NO_ROOM, TOO_LONG};
use crate::samples::{self, ADDRESSES};
use crate::tally::{self, hex, Report, Tally};
use crate::texts::{self, LIMIT};
use std::str::from_utf8;
use tokenizers::pattern::Pattern;

pub fn compare(report: &mut Report) {
    report.call("zulmyren_find_matches", "find_matches of a &str, and match_indices", |tally| {
        every_short_text(tally);
        every_room(tally);
        every_two_byte_strings(tally);
        literal_at_every_offset(tally);
        nearly_everywhere(tally);
        any_texts(tally);
        around_the_limit(tally);
        long_literals(tally);
        nothing_anywhere(tally);
    });
}

/// The list by `match_indices`, which is leftmost and non-overlapping. An empty literal is found nowhere.
fn second(text: &str, literal: &str) -> Vec<Place> {
    if text.is_empty() || literal.is_empty() {
        return vec![((0, text.len()), false)];
    }
    let mut places = vec![];
    let mut at = 0;
    for (start, _) in text.match_indices(literal) {
        places.extend((at < start).then_some(((at, start), false)));
        at = start + literal.len();
        places.push(((start, at), true));
    }
    places.extend((at < text.len()).then_some(((at, text.len()), false)));
    places
}

/// The original's regular expressions take literals of so many bytes: they refuse them from some 327,656 bytes on.
pub const TAKEN: usize = 300_000;

/// The Rust original's list where it has one: it ends an empty literal's place at the character count, and refuses very
/// long literals.
fn theirs(text: &str, literal: &str) -> Option<Vec<Place>> {
    if literal.is_empty() {
        return None;
    }
    let list = literal.find_matches(text);
    let too_long = list.is_err() && literal.len() > TAKEN;
    (!too_long).then(|| list.expect("a literal is a regular expression"))
}

/// The list's bytes, or the refusal that docs/RULES.md gives in any room.
pub fn expected(text: &[u8], literal: &[u8]) -> Result<Vec<u8>, u32> {
    if text.len() > LIMIT {
        return Err(TOO_LONG);
    }
    match (from_utf8(text), from_utf8(literal)) {
        (Ok(text), Ok(literal)) => Ok(places::bytes(&second(text, literal))),
        _ => Err(ILL_FORMED),
    }
}

/// How many matches a literal has, as the Rust original finds them; by `match_indices` where it has no list.
pub fn matches(text: &str, literal: &str) -> usize {
    let places = theirs(text, literal).unwrap_or_else(|| second(text, literal));
    places.iter().filter(|(_, matched)| *matched).count()
}

/// Just large enough, larger, and short by one, by a place and by far.
fn rooms(len: usize) -> Vec<usize> {
    vec![len, len + 7, len.saturating_sub(1), len.saturating_sub(5), 0]
}

pub fn find(tally: &mut Tally, text: &[u8], literal: &[u8], rooms: impl FnOnce(usize) -> Vec<usize>) {
    let list = expected(text, literal);
    let both = from_utf8(text).ok().zip(from_utf8(literal).ok()).filter(|_| text.len() <= LIMIT);
    let their_list = both.and_then(|(text, literal)| theirs(text, literal)).map(|places| places::bytes(&places));
    let agree = their_list.is_none_or(|theirs| list.as_ref() == Ok(&theirs));
    for room in rooms(list.as_ref().map_or(text.len().min(300), Vec::len)) {
        let mut out = Guarded::new(room);
        let ours = library::find_matches(text, literal, out.part());
        let (refusal, bytes): (u32, &[u8]) = match &list {
            Err(refusal) => (*refusal, &[]),
            Ok(list) if room < list.len() => (NO_ROOM, &[]),
            Ok(list) => (0, list),
        };
        let wanted = Written { refusal, len: bytes.len() };
        let held = out.holds(bytes);
        tally.case(tally::refusal(ours.refusal), ours != wanted || !held || !agree, || {
            let (text, literal) = (hex(text), hex(literal));
            format!(
                "ours {ours:?}, wanted {wanted:?}, list equal {held}, match_indices and the original agree {agree}, \
                 in room {room}, literal {literal} in {text}"
            )
        });
    }
}

fn every_short_text(tally: &mut Tally) {
    tally.family("every text of up to 6 characters out of a, b and é, every literal of up to 3");
    for literal in every::strings(3) {
        for text in every::strings(6) {
            find(tally, text.as_bytes(), literal.as_bytes(), |len| vec![len + 3]);
        }
    }
}

fn every_room(tally: &mut Tally) {
    tally.family("every text of up to 3 characters, every literal of up to 2, in every room");
    for literal in every::strings(2) {
        for text in every::strings(3) {
            find(tally, text.as_bytes(), literal.as_bytes(), |len| (0..=len + 6).collect());
        }
    }
}

fn every_two_byte_strings(tally: &mut Tally) {
    tally.family("texts and literals of up to 3 of 5 bytes, well-formed or not");
    let all = every::texts(b"a\xC3\xA9\x80\xFF", 3);
    for text in &all {
        for literal in &all {
            find(tally, text, literal, |len| vec![len, 0]);
        }
    }
}

fn literal_at_every_offset(tally: &mut Tally) {
    tally.family("a literal of 1 to 130 bytes at every offset to 200, once or twice");
    for literal in ["a", "é", "漢", "ab", "aab", "Nest 12", &"a".repeat(33), &"ab漢".repeat(26)] {
        for offset in 0..=texts::OFFSETS {
            let text = [&"a".repeat(offset), literal, &"b".repeat(70)].concat();
            find(tally, text.as_bytes(), literal.as_bytes(), rooms);
            find(tally, (text.clone() + &text).as_bytes(), literal.as_bytes(), rooms);
            find(tally, &text.as_bytes()[..offset], literal.as_bytes(), rooms);
        }
    }
}

/// Literals that overlap themselves, and literals that nearly match at every byte.
fn nearly_everywhere(tally: &mut Tally) {
    tally.family("literals that overlap themselves or nearly match everywhere, texts to the limit");
    for len in [1, 2, 3, 4, 5, 63, 64, 65, 200, 5_000, LIMIT] {
        for unit in ["a", "ab", "aab", "é", "éa", "aaaaaaaab"] {
            let text = texts::repeated(unit, len);
            for times in [1, 2, 3, 7, 50] {
                for tail in ["", "a", "b", "é", "x"] {
                    let literal = unit.repeat(times) + tail;
                    find(tally, text.as_bytes(), literal.as_bytes(), |len| vec![len, len.saturating_sub(1)]);
                }
            }
        }
    }
}

fn any_texts(tally: &mut Tally) {
    tally.family("any text up to the limit, literals out of it, whole and with one byte damaged");
    let mut random = Random::new(46);
    for turn in 0..2_000 {
        let (text, literal) = samples::text_and_literal(turn, &mut random);
        find(tally, text.as_bytes(), literal.as_bytes(), rooms);
        let (mut damaged, mut damaged_literal) = (text.into_bytes(), literal.into_bytes());
        let at = random.below(damaged.len());
        damaged[at] = random.byte();
        find(tally, &damaged, &damaged_literal, rooms);
        if let Some(last) = damaged_literal.last_mut() {
            *last = random.byte();
            find(tally, &damaged, &damaged_literal, rooms);
        }
    }
}

fn around_the_limit(tally: &mut Tally) {
    tally.family("texts about the limit: a match at the end, at every byte, nowhere; beside an ill-formed literal");
    for len in LIMIT - 2..=LIMIT + 3 {
        let mut text = vec![b'a'; len];
        for literal in [&b"a"[..], b"aa", b"b", b"", b"\xFF"] {
            find(tally, &text, literal, rooms);
        }
        text[len - 1] = b'z';
        find(tally, &text, b"az", rooms);
        text[len - 1] = 0xC3;
        find(tally, &text, b"az", rooms);
    }
}

fn long_literals(tally: &mut Tally) {
    tally.family("literals as long as the text, longer, and past what the original's regular expressions take");
    for len in [1, 10, 300, LIMIT] {
        let text = texts::repeated("kůň ", len);
        for longer in [0, 1, 5, 70_000, 400_000] {
            find(tally, text.as_bytes(), texts::repeated("kůň ", len + longer).as_bytes(), rooms);
        }
        find(tally, text.as_bytes(), &[text.as_bytes(), &[0xC3; 400_000]].concat(), rooms);
    }
}

/// The list of an empty text has one place: there is always something to write.
fn nothing_anywhere(tally: &mut Tally) {
    tally.family("nothing passed, at any pointer");
    for address in ADDRESSES {
        let (text, out) = (address as *const u8, address as *mut u8);
        let ours = unsafe { library::zulmyren_find_matches(text, 0, text, 0, out, 0) };
        let no_room = Written { refusal: NO_ROOM, len: 0 };
        tally.case(tally::refusal(ours.refusal), ours != no_room, || format!("ours {ours:?} at {address:#x}"));
    }
}

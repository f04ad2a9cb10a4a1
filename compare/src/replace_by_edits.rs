//! Replacing by an edit for each matched place. The original makes the same note in three ways: by `replace`; by
//! `transform_range` at each matched place, the last of the list first; and by `transform_range` from the first place to
//! the last, each moved by what the places before it added or took. All three are run and must agree, and ours is
//! compared with them. Refusals are beside the second judge of `replace` and the rule for scratch.

use crate::guarded::Output;
use crate::library;
use crate::note::Note;
use crate::places::{self, Place};
use crate::random::Random;
use crate::refusals::NO_ROOM;
use crate::replace::{self, ample, plainly, rooms, Asked, Rooms};
use crate::samples::{self, sound_notes, FILLERS};
use crate::tally::{self, hex, Report, Tally};
use crate::texts::{self, KINDS, LIMIT};
use std::str::from_utf8;
use tokenizers::normalizer::Range;
use tokenizers::{NormalizedString, Offsets};

pub fn compare(report: &mut Report) {
    let beside = "NormalizedString::replace, transform_range in two orders, and a second judge";
    report.call("zulmyren_replace_by_edits", beside, |tally| {
        replace::worked_notes(tally, replace_by_edits);
        every_list_of_four(tally);
        every_list_of_six(tally);
        every_room(tally);
        replace::any_lists(tally, replace_by_edits);
        tally.family("notes of any make up to the limit, any list to 40 places, in 9 rooms");
        replace::long_notes(tally, replace_by_edits, 30, [40; 3]);
        past_the_limit_between_edits(tally);
        replace::one_filler_around_the_limit(tally, replace_by_edits);
        several_fillers_around_the_limit(tally);
        replace::fillers_and_lists_past_the_limit(tally, replace_by_edits);
        replace::damaged_lists(tally, replace_by_edits);
        replace::ill_formed_fillers(tally, replace_by_edits);
        replace::every_set_of_faults(tally, replace_by_edits);
        replace::damaged_notes(tally, replace_by_edits);
        replace::nothing_anywhere(tally, |text, column, out, written| unsafe {
            library::zulmyren_replace_by_edits(
                text, 0, text, 0, column, 0, column, 0, 0, text, 0, text, 0, out, 0, written, 0, written, 0, out, 0,
                written, 0, written, 0, out, 0, written, 0, written, 0,
            )
        });
    });
}

/// In which order the matched places are edited.
#[derive(Clone, Copy, PartialEq)]
pub enum Order {
    LastFirst,
    /// Each place is moved by the bytes added so far less the bytes taken.
    FirstMoved,
    /// As `replace`'s comment says: each place is where the list has it.
    FirstUnmoved,
}

/// The original's `transform_range` at each matched place: all its characters are skipped, and the filler's are added.
pub fn edited(note: &NormalizedString, places: &[Place], filler: &str, order: Order) -> NormalizedString {
    let mut note = note.clone();
    let mut matched: Vec<Offsets> = places.iter().filter(|(_, matched)| *matched).map(|&(place, _)| place).collect();
    if order == Order::LastFirst {
        matched.reverse();
    }
    let mut change = 0;
    for (start, end) in matched {
        let range = start.strict_add_signed(change)..end.strict_add_signed(change);
        let characters = note.get()[range.clone()].chars().count();
        note.transform_range(Range::Normalized(range), filler.chars().map(|character| (character, 1)), characters);
        if order == Order::FirstMoved {
            change += filler.len() as isize - (end - start) as isize;
        }
    }
    note
}

/// The note that the original makes in its three ways, or the refusal that docs/RULES.md gives in any room. That the
/// three agree is a case.
fn expected(tally: &mut Tally, (note, list, filler): Asked) -> Result<Note, u32> {
    let replaced = replace::expected(note, list, filler)?;
    let places = places::read(list).expect("a judged list");
    let (theirs, text) = (note.of_the_original(), from_utf8(filler).expect("a judged filler"));
    let [last_first, moved] =
        [Order::LastFirst, Order::FirstMoved].map(|order| Note::from(&edited(&theirs, &places, text, order)));
    tally.case("the original's three ways", [&last_first, &moved] != [&replaced; 2], || {
        format!("replace {replaced}; last first {last_first}; moved {moved}; {places:?} by {} in {note}", hex(filler))
    });
    Ok(replaced)
}

/// The lengths of the three outputs, and of the two sets of scratch.
pub type Room = [[usize; 3]; 3];

/// Scratch of which all have this length.
pub fn equal(len: usize) -> [[usize; 3]; 2] {
    [[len; 3]; 2]
}

/// The same with one of another length, by its number.
pub fn but_one(len: usize, number: usize, other: usize) -> [[usize; 3]; 2] {
    let mut scratch = equal(len);
    scratch[number / 3][number % 3] = other;
    scratch
}

/// Whether a room is enough for a result of this length, and for edits of a cleaned text of that length.
pub fn fits([out, scratch @ ..]: &Room, result: usize, cleaned: usize) -> bool {
    out.iter().all(|&len| len >= result) && scratch.as_flattened().iter().all(|&len| len >= cleaned + result)
}

/// In each room for the outputs with scratch that is just large enough, with one element less in one of the six, and
/// with none in another, by turns.
pub fn replace_by_edits(tally: &mut Tally, asked: Asked, rooms: fn(usize) -> Rooms, made: &dyn Fn() -> String) {
    let with_scratch = |len: usize, enough: usize| {
        let with = |(turn, out): (usize, [usize; 3])| {
            let short = but_one(enough, turn % 6, enough.saturating_sub(1));
            let none = but_one(enough, (turn + 3) % 6, 0);
            [equal(enough), short, none].map(|[first, second]| [out, first, second])
        };
        rooms(len).into_iter().enumerate().flat_map(with).collect()
    };
    in_rooms(tally, asked, with_scratch, made);
}

/// A note, a list and a filler in the rooms that belong to the result's length and to what scratch needs, or to other
/// lengths where there is no result.
fn in_rooms(tally: &mut Tally, asked: Asked, rooms: impl FnOnce(usize, usize) -> Vec<Room>, made: &dyn Fn() -> String) {
    let (note, list, filler) = asked;
    let published = expected(tally, asked);
    let (len, cleaned) = (replace::len_for_rooms(note, &published), note.normalized.len());
    let enough = match published {
        Ok(_) | Err(NO_ROOM) => cleaned + len,
        Err(_) => 2 * len,
    };
    for room in rooms(len, enough) {
        let [mut out, mut first, mut second] = room.map(Output::new);
        let ours = library::replace_by_edits(note, list, filler, out.passed(), [first.passed(), second.passed()]);
        let left = replace::in_room(&published, fits(&room, len, cleaned));
        let scratch = [first, second].map(|scratch| match left {
            Ok(_) => scratch.guards_hold(),
            Err(_) => scratch.hold(None),
        });
        let (theirs, held) = (replace::written(left), out.hold(left.ok()));
        let differs = ours != theirs || held != [true; 3] || scratch != [[true; 3]; 2];
        tally.case(tally::refusal(ours.refusal), differs, || {
            let input = replace::described(asked, made);
            format!(
                "ours {ours:?}, theirs {theirs:?}, text, starts, ends equal {held:?}, scratch untouched where it must \
                 be {scratch:?}, in rooms {room:?}, {input}"
            )
        });
    }
}

/// Nothing, one character, and two of which one has three bytes.
const SHORT_FILLERS: [&str; 3] = ["", "x", "日x"];

/// Every list of up to so many places on every sound note of a text.
fn every_list(tally: &mut Tally, text: &str, most: usize) {
    let notes: Vec<Note> = ["", "q", "ů", "qů"].iter().flat_map(|transcript| sound_notes(transcript, text)).collect();
    for places in places::up_to(text, most) {
        for note in &notes {
            for filler in SHORT_FILLERS {
                plainly(tally, replace_by_edits, note, &places, filler, ample);
            }
        }
    }
}

fn every_list_of_four(tally: &mut Tally) {
    tally.family("every sound note of up to 3 characters of 1 to 4 bytes, every list of up to 4 places, 3 fillers");
    for text in ["", "a", "é", "漢", "😀", "ab", "aé", "éa", "漢é", "abc", "aéb", "漢aé", "é😀a"] {
        every_list(tally, text, 4);
    }
}

fn every_list_of_six(tally: &mut Tally) {
    tally.family("every sound note of 2 characters of 1 to 3 bytes, every list of up to 6 places, 3 fillers");
    for text in ["ab", "aé", "漢a"] {
        every_list(tally, text, 6);
    }
}

/// Just large enough, larger, all short, none at all, and each of the six in turn short, none and larger.
fn every_scratch(enough: usize) -> impl Iterator<Item = [[usize; 3]; 2]> {
    let short = enough.saturating_sub(1);
    let all = [enough, enough + 9, short, 0].map(equal);
    all.into_iter().chain((0..6).flat_map(move |i| [short, 0, enough + 1].map(|other| but_one(enough, i, other))))
}

fn every_room(tally: &mut Tally) {
    tally.family("starting notes of up to 3 bytes, every list with up to 1 empty place, in 9 rooms with 22 of scratch");
    for text in ["", "a", "é", "ab", "aé", "漢"] {
        let note = Note::from(&NormalizedString::from(text));
        for places in places::every(text, 1) {
            for filler in FILLERS {
                let every = |len: usize, enough: usize| {
                    let with = |out: [usize; 3]| every_scratch(enough).map(move |[first, second]| [out, first, second]);
                    rooms(len).into_iter().flat_map(with).collect()
                };
                in_rooms(tally, (&note, &places::bytes(&places), filler.as_bytes()), every, &|| "whole".into());
            }
        }
    }
}

/// How long the text is at most between edits, the last place first.
fn longest_between(text: &str, places: &[Place], filler: usize) -> usize {
    let mut len = text.len();
    let edited = |&((start, end), matched): &Place| {
        if matched {
            len = len + filler - (end - start);
        }
        len
    };
    places.iter().rev().map(edited).max().unwrap_or(text.len())
}

/// A long place at the front, and up to five more in the rest; the filler is about as long as the limit allows.
fn long_front(text: &str, random: &mut Random) -> (Vec<Place>, String) {
    let front = texts::boundary_before(text, text.len() - random.below(text.len() / 4 + 1));
    let cuts = random.below(5);
    let rest = places::any(&text[front..], cuts, random);
    let rest = rest.into_iter().map(|((start, end), matched)| ((front + start, front + end), matched));
    let places: Vec<Place> = [((0, front), true)].into_iter().chain(rest).collect();
    let matched = places.iter().filter(|(_, matched)| *matched).count();
    let left = LIMIT - places::size(&places, 0) as usize;
    let len = (left / matched).saturating_sub(random.below(3));
    let filler = texts::text(*random.choose(&KINDS), len, random);
    (places, filler)
}

fn past_the_limit_between_edits(tally: &mut Tally) {
    tally.family("texts that are past the limit between edits and within it at the end, in 9 rooms");
    let (note, filler) = (Note::from(&NormalizedString::from("a".repeat(40_000))), "x".repeat(30_000));
    let places = [((0, 40_000), true), ((40_000, 40_000), true)];
    plainly(tally, replace_by_edits, &note, &places, &filler, rooms);
    let mut random = Random::new(46);
    let mut left = 40;
    while left > 0 {
        let len = 20_000 + random.below(LIMIT - 20_000);
        let note = samples::any(len, &mut random);
        let (places, filler) = long_front(note.get(), &mut random);
        if longest_between(note.get(), &places, filler.len()) > LIMIT {
            plainly(tally, replace_by_edits, &Note::from(&note), &places, &filler, rooms);
            left -= 1;
        }
    }
}

fn several_fillers_around_the_limit(tally: &mut Tally) {
    tally.family("results about the limit in 9 rooms: 30 fillers, in the place of bytes or of nothing");
    replace::around_the_limit(tally, replace_by_edits, |size| {
        let taking = |taken: usize| {
            let text = texts::repeated("é", size + 30 * taken - 30 * 800);
            let places = (0..30).flat_map(|i| {
                let (start, next) = (1_000 * i, 1_000 * i + 1_000);
                [((start, start + taken), true), ((start + taken, next), false)]
            });
            let rest = ((30_000, text.len()), false);
            (text, places.chain([rest]).collect(), texts::repeated("漢x", 800))
        };
        [0, 2].map(taking).into()
    });
}

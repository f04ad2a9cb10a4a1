//! What can still be told about the text under a matched place: the claim of docs/RULES.md about two calls of
//! `replace`, both ways, on pairs of notes, and the call that answers for both.

use crate::library::{self, Comparison, Publishing};
use crate::note::{Note, Offset};
use crate::notes::{self, FAULTS};
use crate::places::{self, Place};
use crate::random::Random;
use crate::refusals::{self, BAD_MATCHES, ILL_FORMED, LENGTH_MISMATCH, MISALIGNED, NO_ROOM, TOO_LONG};
use crate::replace;
use crate::samples::{self, sound_notes, FILLERS};
use crate::tally::{self, hex, Report, Tally};
use crate::texts::{self, LIMIT};
use tokenizers::NormalizedString;

pub fn compare(report: &mut Report) {
    report.call("two calls of zulmyren_replace, zulmyren_published_alike", "the claim about them", |tally| {
        every_two_notes(tally);
        any_two_notes(tally);
    });
    report.call("zulmyren_published_alike", "two calls of NormalizedString::replace", |tally| {
        refused_notes(tally);
        two_refusals(tally);
    });
}

/// The result's cleaned text and alignments.
type Published = (Vec<u8>, Vec<Offset>, Vec<Offset>);

/// What our call publishes, where it accepts.
fn published(note: &Note, list: &[u8], filler: &[u8]) -> Option<Published> {
    let room = note.normalized.len() + filler.len() * list.len() / 5;
    let (mut text, mut starts, mut ends) = (vec![0; room], vec![0; room], vec![0; room]);
    let passed = Publishing { text: &mut text, starts: &mut starts, ends: &mut ends };
    let answer = library::replace(note, list, filler, passed);
    text.truncate(answer.len);
    starts.truncate(answer.len);
    ends.truncate(answer.len);
    (answer.refusal == 0).then_some((text, starts, ends))
}

/// Whether two notes that the list covers agree outside its matched places and, where the filler is not empty, on the
/// alignment of the byte before each matched place's end.
fn agree(one: &Note, other: &Note, places: &[Place], filler: &str) -> bool {
    let matched = || places.iter().filter(|&&(_, matched)| matched).map(|&(offsets, _)| offsets);
    let outside = |p: usize| !matched().any(|(start, end)| start <= p && p < end);
    let one_alignment = |p: usize| (one.starts[p], one.ends[p]) == (other.starts[p], other.ends[p]);
    let one_byte = |p: usize| one.normalized[p] == other.normalized[p];
    let outsides = (0..one.normalized.len()).filter(|&p| outside(p)).all(|p| one_byte(p) && one_alignment(p));
    outsides && (filler.is_empty() || matched().all(|(_, end)| end == 0 || one_alignment(end - 1)))
}

/// Equal results of `replace`, the claim, and our call that answers for both.
fn pair(tally: &mut Tally, notes: [&Note; 2], results: [&Published; 2], places: &[Place], filler: &str) {
    let [one, other] = notes;
    let alike = results[0] == results[1];
    let claimed = agree(one, other, places, filler);
    let called = library::published_alike(one, other, &places::bytes(places), filler.as_bytes());
    let differs = alike != claimed || called != Comparison { refusal: 0, alike };
    tally.case(if alike { "alike" } else { "told apart" }, differs, || {
        format!("alike {alike}, claimed {claimed}, {called:?}, places {places:?}, filler {filler:?}, {one}; {other}")
    });
}

/// What `published_alike` answers: the first refusal of replacing either note, or whether the Rust original makes the
/// same of both.
pub fn expected(one: &Note, other: &Note, list: &[u8], filler: &[u8]) -> Comparison {
    let results = [one, other].map(|note| replace::expected(note, list, filler));
    let met: Vec<u32> = results.iter().filter_map(|result| result.as_ref().err().copied()).collect();
    let [one, other] = results.map(|result| result.ok().map(|note| (note.normalized, note.starts, note.ends)));
    match refusals::first(&met) {
        Some(refusal) => Comparison { refusal, alike: false },
        None => Comparison { refusal: 0, alike: one == other },
    }
}

pub fn compare_notes(tally: &mut Tally, [one, other]: [&Note; 2], list: &[u8], filler: &[u8], wanted: Comparison) {
    let ours = library::published_alike(one, other, list, filler);
    tally.case(tally::refusal(ours.refusal), ours != wanted, || {
        let (list, filler) = (hex(list), hex(filler));
        format!("ours {ours:?}, wanted {wanted:?}, list {list}, filler {filler}, {one}; {other}")
    });
}

/// `aéb` as it is, `aéb` with each fault alone, and two texts of other lengths.
fn sound_and_faulty() -> Vec<Note> {
    let of_others = ["", "aéba"].map(|text| Note::from(&NormalizedString::from(text)));
    let sets = [0].into_iter().chain((0..FAULTS.len()).map(|i| 1 << i));
    sets.map(notes::with).chain(of_others).collect()
}

/// Each fault of either note beside each of the other, lists that cover both texts, one or none, and fillers
/// well-formed or not, or too long for the result.
fn refused_notes(tally: &mut Tally) {
    tally.family("every two notes out of twelve, sound or with a fault, four lists, four fillers");
    let notes = sound_and_faulty();
    let lists: [&[Place]; 4] =
        [&[((0, 1), false), ((1, 4), true)], &[((0, 4), true)], &[((0, 2), true), ((2, 4), false)], &[((0, 0), true)]];
    for [one, other] in notes.iter().flat_map(|one| notes.iter().map(move |other| [one, other])) {
        for list in lists.map(places::bytes) {
            for filler in [&b"x"[..], b"", b"\xFF", &[b'x'; LIMIT + 1]] {
                compare_notes(tally, [one, other], &list, filler, expected(one, other, &list, filler));
            }
        }
    }
}

/// The answers are written down here, for both orders of the two notes.
fn two_refusals(tally: &mut Tally) {
    tally.family("two notes with different refusals: the first in the order of docs/RULES.md over both");
    let fault = |i: usize| notes::with(1 << i);
    let (sound, uncovered) = (notes::with(0), Note::from(&NormalizedString::from("aéba")));
    let (long, mismatched, ill_formed, misaligned) = (fault(0), fault(3), fault(5), fault(7));
    let list = places::bytes(&[((0, 1), false), ((1, 4), true)]);
    let worked: [(&Note, &Note, u32); 11] = [
        (&uncovered, &long, TOO_LONG),
        (&mismatched, &long, TOO_LONG),
        (&ill_formed, &long, TOO_LONG),
        (&misaligned, &long, TOO_LONG),
        (&uncovered, &mismatched, LENGTH_MISMATCH),
        (&ill_formed, &mismatched, LENGTH_MISMATCH),
        (&misaligned, &ill_formed, ILL_FORMED),
        (&uncovered, &ill_formed, ILL_FORMED),
        (&uncovered, &misaligned, MISALIGNED),
        (&sound, &uncovered, BAD_MATCHES),
        (&sound, &sound, 0),
    ];
    for (one, other, refusal) in worked {
        let wanted = Comparison { refusal, alike: refusal == 0 };
        compare_notes(tally, [one, other], &list, b"x", wanted);
        compare_notes(tally, [other, one], &list, b"x", wanted);
    }
    // A filler that is too long for a note's result, a list that does not cover the other, and an ill-formed filler.
    let filler = [b'x'; LIMIT + 1];
    let wanted = |refusal| Comparison { refusal, alike: false };
    compare_notes(tally, [&sound, &sound], &list, &filler, wanted(NO_ROOM));
    compare_notes(tally, [&sound, &uncovered], &list, &filler, wanted(BAD_MATCHES));
    compare_notes(tally, [&uncovered, &sound], &list, &filler, wanted(BAD_MATCHES));
    compare_notes(tally, [&uncovered, &misaligned], &list, b"\xFF", wanted(ILL_FORMED));
}

fn every_two_notes(tally: &mut Tally) {
    tally.family("every two sound notes of five texts of 2 bytes, every list with up to 2 empty places, 3 fillers");
    let notes: Vec<Note> = ["ab", "ac", "xb", "é", "è"]
        .iter()
        .flat_map(|text| ["", "q", "ů", "qů"].iter().flat_map(|transcript| sound_notes(transcript, text)))
        .collect();
    for places in places::every("ab", 2) {
        let list = places::bytes(&places);
        for filler in ["", "x", "é*"] {
            let accepted: Vec<(&Note, Published)> =
                notes.iter().filter_map(|note| Some((note, published(note, &list, filler.as_bytes())?))).collect();
            for (one, result) in &accepted {
                for (other, other_result) in &accepted {
                    pair(tally, [one, other], [result, other_result], &places, filler);
                }
            }
        }
    }
}

fn any_two_notes(tally: &mut Tally) {
    tally.family(
        "any note to 200 bytes and the same with its matched places altered, and often one thing more, any list",
    );
    let mut random = Random::new(45);
    for _ in 0..30_000 {
        let len = 1 + random.below(200);
        let note = samples::any(len, &mut random);
        let cuts = random.below(12);
        let places = places::any(note.get(), cuts, &mut random);
        let list = places::bytes(&places);
        let filler = random.choose(&FILLERS);
        let one = Note::from(&note);
        let other = altered(note.get(), &one, &places, &mut random);
        assert_eq!((one.refusal(), other.refusal()), (0, 0), "{one}; {other}");
        let results = [&one, &other].map(|note| published(note, &list, filler.as_bytes()));
        match results {
            [Some(result), Some(other_result)] => {
                pair(tally, [&one, &other], [&result, &other_result], &places, filler);
            }
            _ => tally.case("refused", true, || format!("a covering list is refused: {places:?}, {one}; {other}")),
        }
    }
}

/// Another sound note: characters under matched places are others, and alignments there too except each place's last;
/// in three of four notes one thing more is altered, which the claim counts or not.
fn altered(text: &str, note: &Note, places: &[Place], random: &mut Random) -> Note {
    let mut other = note.clone();
    for &((start, end), _) in places.iter().filter(|&&((start, end), matched)| matched && start < end) {
        for (at, character) in text[start..end].char_indices() {
            put_another(&mut other.normalized, start + at, character, random);
        }
        let last = texts::boundary_before(text, end - 1);
        // All up to a boundary are aligned as the character before the place, the rest as the place's last.
        let middle = start + texts::any_boundary(&text[start..last], random);
        if start > 0 {
            align(&mut other, start..middle, start - 1);
        }
        align(&mut other, middle..last, last);
    }
    let characters: Vec<(usize, char)> = text.char_indices().collect();
    if characters.is_empty() {
        return other;
    }
    let &(at, character) = random.choose(&characters);
    match random.below(8) {
        0 => put_another(&mut other.normalized, at, character, random),
        1 if at > 0 => align(&mut other, at..at + character.len_utf8(), at - 1),
        2 if at + character.len_utf8() < text.len() => {
            align(&mut other, at..at + character.len_utf8(), at + character.len_utf8());
        }
        3 => other.original_shift = random.below(LIMIT + 1 - other.original.len()) as u32,
        4 => other.original.extend("漢".bytes().take(if other.original_shift < 60_000 { 3 } else { 0 })),
        5 => {
            let original = String::from_utf8(note.original.clone()).expect("a sound note");
            for (at, character) in original.char_indices() {
                put_another(&mut other.original, at, character, random);
            }
        }
        _ => (),
    }
    other
}

/// Another character of as many bytes.
fn put_another(text: &mut [u8], at: usize, character: char, random: &mut Random) {
    let of_len = [&["a", "b", "7"], &["é", "ž", "ů"], &["漢", "日", "。"], &["😀", "🔔", "🪶"]];
    let len = character.len_utf8();
    text[at..at + len].copy_from_slice(random.choose(of_len[len - 1]).as_bytes());
}

fn align(note: &mut Note, bytes: std::ops::Range<usize>, like: usize) {
    let (start, end) = (note.starts[like], note.ends[like]);
    note.starts[bytes.clone()].fill(start);
    note.ends[bytes].fill(end);
}

//! The answers of replacing by edits.

use super::calls::{faulty_notes, fresh, notes, published};
use crate::list::{Answers, Replayed};
use crate::note::Note;
use crate::places::{self, Place};
use crate::replace::{self, Asked};
use crate::replace_by_edits::{but_one, equal, fits, Room};
use crate::texts::LIMIT;

/// The most elements of a scratch buffer for which crates/replay has room.
const SCRATCH: usize = 65_536;

/// A note, a list, a content, the lengths of the six scratch buffers, the passed text, starts and ends; the refusal, the
/// size, the three buffers. What scratch holds is left out. The rooms belong to the result's length and to what scratch
/// needs.
fn replace_by_edits(answers: &mut Answers, asked: Asked, rooms: impl Fn(usize, usize) -> Room) {
    let (note, list, content) = asked;
    let (result, cleaned) = (replace::expected(note, list, content), note.normalized.len());
    let (len, enough) = match &result {
        Ok(result) => (result.normalized.len(), cleaned + result.normalized.len()),
        Err(_) => (3, 9),
    };
    let room = rooms(len, enough);
    answers.answer().note(note).text(list).text(content);
    for &len in room[1..].as_flattened() {
        assert!(len <= SCRATCH, "crates/replay has no scratch of {len} elements");
        answers.number(len as u32);
    }
    published(answers, replace::in_room(&result, fits(&room, len, cleaned)), room[0]);
}

fn plainly(answers: &mut Answers, note: &Note, places: &[Place], filler: &str) {
    replace_by_edits(answers, (note, &places::bytes(places), filler.as_bytes()), ample);
}

/// Larger outputs, and scratch that is just large enough.
fn ample(len: usize, enough: usize) -> Room {
    [[len, len + 1, len + 2], [enough; 3], [enough; 3]]
}

/// No output and no scratch.
fn none(_: usize, _: usize) -> Room {
    [[0; 3]; 3]
}

pub fn replaced_by_edits() -> Answers {
    let mut answers = Answers::new(Replayed::ReplaceByEdits);
    accepted(&mut answers);
    edited_notes(&mut answers);
    short_of_room(&mut answers);
    refused(&mut answers);
    long(&mut answers);
    answers
}

/// The worked notes, lists without an empty place, and lists with several at one position, also straight after a matched
/// place and at 0.
fn accepted(answers: &mut Answers) {
    let digits = [((0, 5), false), ((5, 7), true)];
    plainly(answers, &fresh("nest 12"), &digits, "**");
    plainly(answers, &fresh("nest 47"), &digits, "**");
    plainly(answers, &fresh("ab"), &[((0, 0), true), ((0, 2), false)], "x");
    for places in places::every("aé", 0) {
        plainly(answers, &fresh("aé"), &places, "漢x");
    }
    let empty = |at: usize| ((at, at), true);
    let lists: [&[Place]; 3] = [
        &[empty(0), empty(0), ((0, 1), true), empty(1), ((1, 3), false), empty(3), empty(3)],
        &[((0, 1), true), empty(1), ((1, 1), false), empty(1), ((1, 3), true), empty(3)],
        &[((0, 0), false), empty(0), ((0, 3), true)],
    ];
    for filler in ["", "x", "é日"] {
        for places in lists {
            plainly(answers, &fresh("aé"), places, filler);
        }
        for places in [&[][..], &[((0, 0), false)], &[empty(0), empty(0)]] {
            plainly(answers, &fresh(""), places, filler);
        }
    }
}

/// Notes that the original edited, some with a shift: all of the text, and its first character with nothing after it.
fn edited_notes(answers: &mut Answers) {
    for (mut note, shift) in notes().into_iter().zip([0, 7, 0, 65_000]) {
        note.original_shift = shift;
        let text = String::from_utf8(note.normalized.clone()).expect("a sound note");
        let first = text.chars().next().map_or(0, char::len_utf8);
        plainly(answers, &note, &[((0, text.len()), true)], "xé");
        plainly(answers, &note, &[((0, first), true), ((first, first), true), ((first, text.len()), false)], "日");
    }
}

/// Each output and each scratch buffer one short, all larger, none at all; and scratch one short beside a list without a
/// matched place.
fn short_of_room(answers: &mut Answers) {
    let note = fresh("aé");
    let list = places::bytes(&[((0, 1), true), ((1, 1), true), ((1, 3), false)]);
    let unmatched = places::bytes(&[((0, 1), false), ((1, 3), false)]);
    for output in 0..3 {
        replace_by_edits(answers, (&note, &list, b"xy"), |len, enough| {
            let [mut out, first, second] = ample(len, enough);
            out[output] = len - 1;
            [out, first, second]
        });
    }
    for list in [&list, &unmatched] {
        for number in 0..6 {
            replace_by_edits(answers, (&note, list, b"xy"), |len, enough| {
                let [first, second] = but_one(enough, number, enough - 1);
                [[len; 3], first, second]
            });
        }
        replace_by_edits(answers, (&note, list, b"xy"), none);
        replace_by_edits(answers, (&note, list, b"xy"), |len, enough| [[len + 90; 3], [enough + 1; 3], [SCRATCH; 3]]);
    }
}

/// Each fault of a note beside a filler, a list and scratch that are wrong too; then the filler, then the list.
fn refused(answers: &mut Answers) {
    let (note, list) = (fresh("aéb"), places::bytes(&[((0, 1), true), ((1, 4), false)]));
    for faulty in faulty_notes() {
        replace_by_edits(answers, (&faulty, &list[..9], b"x"), none);
    }
    for asked in [(&note, &list[..9], &b"\xFF"[..]), (&note, &list, b"x\xC3"), (&note, &list[..5], b"x")] {
        replace_by_edits(answers, asked, none);
        replace_by_edits(answers, asked, ample);
    }
    for at in 0..list.len() {
        let mut damaged = list.clone();
        damaged[at] ^= 2;
        replace_by_edits(answers, (&note, &damaged, b"x"), ample);
    }
}

/// As much scratch as there can be here, and one element less; a filler past the limit that is not used; and a result
/// past the limit.
fn long(answers: &mut Answers) {
    let half = SCRATCH / 2;
    let note = fresh(&"a".repeat(half));
    let list = places::bytes(&[((0, 8), false), ((8, half - 1), true), ((half - 1, half), true)]);
    let filler = "é".repeat(half / 4 - 2);
    for scratch in [equal(SCRATCH), but_one(SCRATCH, 4, SCRATCH - 1)] {
        replace_by_edits(answers, (&note, &list, filler.as_bytes()), |len, _| [[len; 3], scratch[0], scratch[1]]);
    }
    let (note, filler) = (fresh("aéb"), [b'x'; 70_000]);
    for matched in [false, true] {
        let list = places::bytes(&[((0, 3), matched), ((3, 4), false)]);
        replace_by_edits(answers, (&note, &list, &filler), |_, _| [[LIMIT + 1; 3], [SCRATCH; 3], [SCRATCH; 3]]);
    }
}

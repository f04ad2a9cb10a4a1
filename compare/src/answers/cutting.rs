//! The answers of splitting and split offsets.

use super::calls::{faulty_notes, fresh};
use crate::list::{Answers, Replayed};
use crate::note::Note;
use crate::places::{self, Place};
use crate::ranges::Sample;
use crate::refusals::NO_ROOM;
use crate::split::{at_dashes, number, Asked, Columns, BEHAVIORS};
use crate::splits;
use crate::texts::LIMIT;
use tokenizers::NormalizedString;

pub fn answers() -> [Answers; 2] {
    [pieces(), split_offsets()]
}

/// A note, a list, a behaviour, 1 where empty pieces are dropped, the six passed buffers; the refusal, the two numbers,
/// the six buffers.
fn piece(answers: &mut Answers, asked: Asked, drop_empty: bool, rooms: &dyn Fn((usize, usize)) -> [usize; 6]) {
    let columns = asked.expected(drop_empty);
    let (pieces, alignments) = columns.as_ref().map_or((2, 2), Columns::sizes);
    let room = rooms((pieces, alignments));
    let small = room[..4].iter().any(|&len| len < pieces) || room[4..].iter().any(|&len| len < alignments);
    let (refusal, columns) = match columns {
        Err(refusal) => (refusal, Columns::default()),
        Ok(_) if small => (NO_ROOM, Columns::default()),
        Ok(columns) => (0, columns),
    };
    let (pieces, alignments) = columns.sizes();
    answers.answer().note(&asked.sample.note).text(asked.list).number(number(asked.behavior));
    answers.number(drop_empty.into()).passed_column(room[0]).passed_column(room[1]).passed_numbers(room[2]);
    answers.passed_column(room[3]).passed_column(room[4]).passed_column(room[5]);
    answers.number(refusal).number(pieces as u32).number(alignments as u32);
    answers.left_column(room[0], &columns.starts).left_column(room[1], &columns.ends);
    answers.left_numbers(room[2], &columns.shifts).left_column(room[3], &columns.lengths);
    answers.left_column(room[4], &columns.alignment_starts).left_column(room[5], &columns.alignment_ends);
}

fn ample((pieces, alignments): (usize, usize)) -> [usize; 6] {
    [pieces, pieces + 1, pieces, pieces, alignments + 1, alignments]
}

/// Texts and places to cut them at: a worked note, a text with a shift, empty places, and an empty text.
fn to_cut() -> Vec<(Note, Vec<Place>)> {
    let mut shifted = fresh("é-a--");
    shifted.original_shift = 2;
    let mut blanked = NormalizedString::from("a1-2");
    blanked.replace("1-2", "漢-").expect("a literal is a regular expression");
    let empty = vec![((0, 0), true), ((0, 0), false), ((0, 1), true), ((1, 1), false), ((1, 2), true), ((2, 2), true)];
    vec![
        (fresh("the-final--countdown"), at_dashes("the-final--countdown")),
        (shifted, at_dashes("é-a--")),
        (Note::from(&blanked), at_dashes(blanked.get())),
        (fresh("--"), empty),
        (fresh(""), vec![((0, 0), false)]),
        (fresh(""), vec![]),
    ]
}

fn pieces() -> Answers {
    let mut answers = Answers::new(Replayed::Split);
    for (note, places) in to_cut() {
        let (sample, list) = (Sample::from(note), places::bytes(&places));
        for behavior in BEHAVIORS {
            for drop_empty in [false, true] {
                piece(&mut answers, Asked { sample: &sample, list: &list, behavior }, drop_empty, &ample);
            }
        }
    }
    let (sample, list) = (Sample::from(fresh("a-é")), places::bytes(&at_dashes("a-é")));
    for (i, behavior) in [0, 1, 2, 3, 4, 5].into_iter().zip(BEHAVIORS.into_iter().cycle()) {
        piece(&mut answers, Asked { sample: &sample, list: &list, behavior }, true, &|sizes| {
            let mut room = ample(sizes);
            room[i] = room[i].saturating_sub(if room[i] > 3 { 2 } else { 1 });
            room
        });
    }
    for at in 0..list.len() {
        let mut damaged = list.clone();
        damaged[at] ^= 2;
        let asked = Asked { sample: &sample, list: &damaged, behavior: BEHAVIORS[at % 5] };
        piece(&mut answers, asked, at % 2 == 0, &ample);
    }
    for note in faulty_notes() {
        let (sample, list) = (Sample::from(note), places::bytes(&[((0, 4), false)]));
        piece(&mut answers, Asked { sample: &sample, list: &list, behavior: BEHAVIORS[1] }, false, &|_| [0; 6]);
    }
    let long = "a".repeat(LIMIT);
    let (sample, list) =
        (Sample::from(fresh(&long)), places::bytes(&[((0, LIMIT - 1), false), ((LIMIT - 1, LIMIT), true)]));
    for behavior in BEHAVIORS {
        piece(&mut answers, Asked { sample: &sample, list: &list, behavior }, false, &ample);
    }
    answers
}

/// A note, a list, a behaviour, 1 for offsets in the transcript, 1 for characters, the passed starts and ends; the
/// refusal, how many there are, the two buffers.
fn offsets(answers: &mut Answers, asked: Asked, way: [bool; 2], rooms: fn(usize) -> [usize; 2]) {
    let pairs = splits::expected(asked, way);
    let len = pairs.as_ref().map_or(2, Vec::len);
    let room = rooms(len);
    let (refusal, pairs) = match pairs {
        Err(refusal) => (refusal, vec![]),
        Ok(_) if room.iter().any(|&room| room < len) => (NO_ROOM, vec![]),
        Ok(pairs) => (0, pairs),
    };
    let (starts, ends): (Vec<u32>, Vec<u32>) = pairs.into_iter().unzip();
    answers.answer().note(&asked.sample.note).text(asked.list).number(number(asked.behavior));
    answers.number(way[0].into()).number(way[1].into()).passed_numbers(room[0]).passed_numbers(room[1]);
    answers.number(refusal).number(starts.len() as u32).left_numbers(room[0], &starts).left_numbers(room[1], &ends);
}

fn split_offsets() -> Answers {
    let mut answers = Answers::new(Replayed::GetSplits);
    let ways = [[false, false], [false, true], [true, false], [true, true]];
    for (note, places) in to_cut() {
        let (sample, list) = (Sample::from(note), places::bytes(&places));
        for behavior in BEHAVIORS {
            for way in ways {
                offsets(&mut answers, Asked { sample: &sample, list: &list, behavior }, way, |len| [len, len + 1]);
            }
        }
    }
    let (sample, list) = (Sample::from(fresh("a-é")), places::bytes(&at_dashes("a-é")));
    let rooms: [fn(usize) -> [usize; 2]; 3] = [|len| [len - 1, len], |len| [len, len - 1], |_| [0, 0]];
    for rooms in rooms {
        offsets(&mut answers, Asked { sample: &sample, list: &list, behavior: BEHAVIORS[1] }, [true, true], rooms);
    }
    for at in 0..list.len() {
        let mut damaged = list.clone();
        damaged[at] ^= 2;
        let asked = Asked { sample: &sample, list: &damaged, behavior: BEHAVIORS[at % 5] };
        offsets(&mut answers, asked, ways[at % 4], |len| [len, len]);
    }
    for note in faulty_notes() {
        let (sample, list) = (Sample::from(note), places::bytes(&[((0, 4), false)]));
        offsets(&mut answers, Asked { sample: &sample, list: &list, behavior: BEHAVIORS[1] }, ways[0], |_| [0, 0]);
    }
    answers
}

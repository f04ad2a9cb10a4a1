//! The answers of slicing.

use super::calls::{faulty_notes, fresh, notes};
use crate::every;
use crate::library::Sliced;
use crate::list::{Answers, Replayed};
use crate::note::Note;
use crate::ranges::Sample;
use crate::refusals::NO_ROOM;
use crate::slice;
use crate::texts::LIMIT;

/// A note, the text that the range is of (1 for the transcript, 0 for the cleaned one), start, end, the passed starts
/// and ends; the refusal, the two ranges and the shift, the two columns.
fn slice(answers: &mut Answers, note: &Note, of_original: bool, asked: (usize, usize), rooms: fn(usize) -> [usize; 2]) {
    let asked = (asked.0 as u32, asked.1 as u32);
    let cut = slice::expected(&Sample::from(note.clone()), of_original, asked);
    let len = cut.as_ref().map_or(3, |cut| cut.starts.len());
    let room = rooms(len);
    let (answer, starts, ends) = match cut {
        Err(refusal) => (Sliced::refused(refusal), vec![], vec![]),
        Ok(_) if room.iter().any(|&room| room < len) => (Sliced::refused(NO_ROOM), vec![], vec![]),
        Ok(cut) => (cut.answer, cut.starts, cut.ends),
    };
    answers.answer().note(note).number(of_original.into()).number(asked.0).number(asked.1);
    answers.passed_column(room[0]).passed_column(room[1]).number(answer.refusal);
    answers.number(answer.original_start).number(answer.original_end);
    answers.number(answer.normalized_start).number(answer.normalized_end).number(answer.original_shift);
    answers.left_column(room[0], &starts).left_column(room[1], &ends);
}

/// Room for more starts than there are, and for just as many ends.
const AMPLE: fn(usize) -> [usize; 2] = |len| [len + 1, len];

pub fn slices() -> Answers {
    let mut answers = Answers::new(Replayed::Slice);
    let some = [(2, 1), (9, 0), (900, 900), (0, LIMIT), (u32::MAX as usize, 0), (1, u32::MAX as usize)];
    for of_original in [false, true] {
        let [first, others @ ..] = notes();
        for asked in every::pair(5).chain(some) {
            slice(&mut answers, &first, of_original, asked, AMPLE);
        }
        for note in others {
            for asked in [(0, 3), (1, 4), (3, 4), (0, 4), (1, 1), (3, 3)] {
                slice(&mut answers, &note, of_original, asked, AMPLE);
            }
        }
        let rooms: [fn(usize) -> [usize; 2]; 4] =
            [|len| [len - 1, len], |len| [len, len - 1], |_| [0, 0], |_| [LIMIT, LIMIT]];
        for rooms in rooms {
            slice(&mut answers, &first, of_original, (0, 3), rooms);
        }
    }
    for note in faulty_notes() {
        slice(&mut answers, &note, true, (0, 9), AMPLE);
        slice(&mut answers, &note, false, (0, 1), |_| [0, 0]);
    }
    at_the_limit(&mut answers);
    answers
}

/// Shifts at the limit and past it, and long notes.
fn at_the_limit(answers: &mut Answers) {
    for shift in [LIMIT - 1, LIMIT] {
        let mut note = fresh("");
        note.normalized = b"abc".to_vec();
        (note.starts, note.ends, note.original_shift) = (vec![0; 3], vec![0; 3], shift as u32);
        for at in 0..4 {
            slice(answers, &note, false, (at, at), AMPLE);
            slice(answers, &note, true, (at, at), AMPLE);
        }
    }
    for text in ["a".repeat(LIMIT), "é".repeat(LIMIT / 2)] {
        for of_original in [false, true] {
            slice(answers, &fresh(&text), of_original, (0, text.len()), AMPLE);
            slice(answers, &fresh(&text), of_original, (LIMIT / 2 + 1, LIMIT - 1), AMPLE);
        }
    }
}

//! What this library makes of a note, as a note of its own, in the room that is always enough; or its refusal.

use crate::library::{self, Cutting, Publishing};
use crate::note::{position, Note, Offset};
use crate::places::{self, Place};
use crate::texts::LIMIT;
use std::ops;
use tokenizers::normalizer::Range;

/// What is published.
pub fn replaced(note: &Note, places: &[Place], content: &str) -> Result<Note, u32> {
    let (mut text, mut starts, mut ends) = (vec![0; LIMIT], vec![0; LIMIT], vec![0; LIMIT]);
    let out = Publishing { text: &mut text, starts: &mut starts, ends: &mut ends };
    let answer = library::replace(note, &places::bytes(places), content.as_bytes(), out);
    if answer.refusal > 0 {
        return Err(answer.refusal);
    }
    text.truncate(answer.len);
    starts.truncate(answer.len);
    ends.truncate(answer.len);
    Ok(Note { normalized: text, starts, ends, ..note.clone() })
}

/// The slice.
pub fn sliced(note: &Note, range: Range<ops::Range<usize>>) -> Result<Note, u32> {
    let (of_original, asked) = (matches!(range, Range::Original(_)), range.unwrap());
    let (mut starts, mut ends) = (vec![0; LIMIT], vec![0; LIMIT]);
    let answer = library::slice(note, of_original, (asked.start as u32, asked.end as u32), &mut starts, &mut ends);
    if answer.refusal > 0 {
        return Err(answer.refusal);
    }
    let (original, normalized) = (part(&note.original, answer.original()), part(&note.normalized, answer.normalized()));
    starts.truncate(normalized.len());
    ends.truncate(normalized.len());
    Ok(Note { original, normalized, starts, ends, original_shift: answer.original_shift })
}

/// An empty range may be past the text.
fn part(text: &[u8], (start, end): (u32, u32)) -> Vec<u8> {
    match start == end {
        true => vec![],
        false => text[start as usize..end as usize].to_vec(),
    }
}

/// The pieces, empty ones too.
pub fn pieces(note: &Note, list: &[u8], behavior: u32) -> Result<Vec<Note>, u32> {
    let (places, bytes) = (list.len() / 5, note.normalized.len());
    let [mut starts, mut ends, mut lengths] = [(); 3].map(|()| vec![0; places]);
    let [mut alignment_starts, mut alignment_ends] = [(); 2].map(|()| vec![0; bytes]);
    let mut shifts = vec![0; places];
    let out = Cutting {
        starts: &mut starts,
        ends: &mut ends,
        shifts: &mut shifts,
        lengths: &mut lengths,
        alignment_starts: &mut alignment_starts,
        alignment_ends: &mut alignment_ends,
    };
    let answer = library::split(note, list, behavior, false, out);
    if answer.refusal > 0 {
        return Err(answer.refusal);
    }
    let mut at = 0;
    let piece = |i: usize| {
        let wide = |column: &[Offset]| position(column[i]) as u32;
        let normalized = part(&note.normalized, (wide(&starts), wide(&ends)));
        let from = shifts[i] - note.original_shift;
        let columns = at..at + normalized.len();
        at = columns.end;
        Note {
            original: part(&note.original, (from, from + wide(&lengths))),
            normalized,
            starts: alignment_starts[columns.clone()].to_vec(),
            ends: alignment_ends[columns].to_vec(),
            original_shift: shifts[i],
        }
    };
    Ok((0..answer.len).map(piece).collect())
}

//! Slicing beside `NormalizedString::slice`, and refusals beside a second judge.

use crate::every;
use crate::guarded::Guarded;
use crate::library::{self, pass, Sliced};
use crate::note::{Note, Offset};
use crate::notes;
use crate::random::Random;
use crate::ranges::{range, ranges_to, samples_with_faults, sound_notes, Sample};
use crate::refusals::{MISSING, NOT_BOUNDARY, NO_ROOM};
use crate::samples::{self, ADDRESSES, DAMAGES, DAMAGES_AT};
use crate::tally::{self, Report, Tally};
use crate::texts::{self, LIMIT, UNITS};
use std::str::from_utf8;
use tokenizers::NormalizedString;

pub fn compare(report: &mut Report) {
    report.call("zulmyren_slice", "NormalizedString::slice and a second judge", |tally| {
        worked_notes(tally);
        every_sound_note(tally);
        every_range(tally);
        every_room(tally);
        every_set_of_faults(tally);
        around_blocks(tally);
        around_the_limit(tally);
        shifts_past_the_limit(tally);
        edited_notes(tally);
        damaged_notes(tally);
        long_notes(tally);
        slices_of_slices(tally);
        nothing_anywhere(tally);
    });
}

/// An accepted slice: its numbers, and its alignments.
#[derive(Clone)]
pub struct Cut {
    pub answer: Sliced,
    pub starts: Vec<Offset>,
    pub ends: Vec<Offset>,
}

/// The slice that the Rust original cuts, or the refusal that docs/RULES.md gives in any room.
pub fn expected(sample: &Sample, of_original: bool, asked: (u32, u32)) -> Result<Cut, u32> {
    let note = sample.theirs()?;
    let text = from_utf8(sample.text(of_original)).expect("a checked text");
    if ![asked.0, asked.1].iter().all(|&end| text.is_char_boundary(end as usize)) {
        return Err(NOT_BOUNDARY);
    }
    let slice = note.slice(range(of_original, asked)).ok_or(MISSING)?;
    let cut = Cut::of(note, &slice, if of_original { converted_start(note, asked) } else { asked.0 as usize });
    assert_eq!(sample.part(false, cut.answer.normalized()), slice.get().as_bytes(), "{}", sample.note);
    assert_eq!(sample.part(true, cut.answer.original()), slice.get_original().as_bytes(), "{}", sample.note);
    Ok(cut)
}

/// Where a range of the transcript begins in the cleaned text.
fn converted_start(note: &NormalizedString, asked: (u32, u32)) -> usize {
    note.convert_offsets(range(true, asked)).expect("it was sliced").start
}

impl Cut {
    /// A slice of the original's, which begins at `start` in the note's cleaned text. How far its transcript is from
    /// the note's is what its shift has grown by.
    pub fn of(note: &NormalizedString, slice: &NormalizedString, start: usize) -> Self {
        let original_start = slice.original_shift() - note.original_shift();
        let Note { starts, ends, .. } = Note::from(slice);
        let answer = Sliced {
            refusal: 0,
            original_start: original_start as u32,
            original_end: (original_start + slice.len_original()) as u32,
            normalized_start: start as u32,
            normalized_end: (start + slice.len()) as u32,
            original_shift: slice.original_shift() as u32,
        };
        Cut { answer, starts, ends }
    }
}

impl Sample {
    /// The bytes of a range; of an empty one none, also past the text.
    fn part(&self, of_original: bool, (start, end): (u32, u32)) -> &[u8] {
        if start == end {
            &[]
        } else {
            &self.text(of_original)[start as usize..end as usize]
        }
    }
}

/// The lengths of the two passed columns.
type Rooms = Vec<(usize, usize)>;

/// Just large enough and larger.
fn ample(len: usize) -> Rooms {
    vec![(len, len + 1)]
}

fn slice(tally: &mut Tally, sample: &Sample, of_original: bool, asked: (u32, u32), rooms: impl FnOnce(usize) -> Rooms) {
    let cut = expected(sample, of_original, asked);
    let len = cut.as_ref().map_or(4, |cut| cut.starts.len());
    for room in rooms(len) {
        let (mut starts, mut ends) = (Guarded::new(room.0), Guarded::new(room.1));
        let ours = library::slice(&sample.note, of_original, asked, starts.part(), ends.part());
        let (theirs, their_starts, their_ends): (Sliced, &[Offset], &[Offset]) = match &cut {
            Err(refusal) => (Sliced::refused(*refusal), &[], &[]),
            Ok(_) if room.0.min(room.1) < len => (Sliced::refused(NO_ROOM), &[], &[]),
            Ok(cut) => (cut.answer, &cut.starts, &cut.ends),
        };
        let held = [starts.holds(their_starts), ends.holds(their_ends)];
        tally.case(tally::refusal(ours.refusal), ours != theirs || held != [true; 2], || {
            let text = if of_original { "original" } else { "normalized" };
            let ((start, end), note) = (asked, &sample.note);
            format!(
                "ours {ours:?}, theirs {theirs:?}, starts, ends equal {held:?}, in rooms {room:?}, on {start}..{end} of \
                 the {text} text of {note}"
            )
        });
    }
}

/// Every range of both texts with ends up to two past the text, or far past it.
fn slice_every_range(tally: &mut Tally, sample: &Sample) {
    for of_original in [false, true] {
        for asked in ranges_to(sample.text(of_original).len() + 2) {
            slice(tally, sample, of_original, asked, ample);
        }
    }
}

pub fn slice_any_ranges(tally: &mut Tally, sample: &Sample, count: usize, random: &mut Random) {
    for of_original in [false, true] {
        for _ in 0..count {
            let asked = sample.any_range(of_original, random);
            slice(tally, sample, of_original, asked, |len| vec![*random.choose(&notes::rooms(len))]);
        }
    }
}

/// The text that a slice is asked of, the range; the ranges of the transcript and of the cleaned text, and the shift;
/// the alignments.
type Worked<'a> = (&'a Sample, bool, (u32, u32), [u32; 5], &'a [(Offset, Offset)]);

/// The answers are written down here, and both sides give them.
fn worked_notes(tally: &mut Tally) {
    tally.family("worked notes");
    let fresh = Sample::from(NormalizedString::from("aéb"));
    let mut longer = NormalizedString::from("ab");
    longer.prepend("1234567");
    let longer = Sample::from(longer);
    let mut blanked = NormalizedString::from("nest 12");
    blanked.replace("12", "***").expect("a literal is a regular expression");
    let blanked = Sample::from(blanked);
    let worked: [Worked; 7] = [
        (&fresh, false, (1, 3), [1, 3, 1, 3, 1], &[(0, 2), (0, 2)]),
        (&fresh, true, (1, 4), [1, 4, 1, 4, 1], &[(0, 2), (0, 2), (2, 3)]),
        (&fresh, false, (4, 4), [4, 4, 4, 4, 4], &[]),
        // The transcript has two bytes, and the shift grows by 7 all the same.
        (&longer, false, (7, 7), [7, 7, 7, 7, 7], &[]),
        (&longer, true, (1, 2), [1, 2, 8, 9, 1], &[(0, 1)]),
        (&blanked, false, (5, 8), [6, 7, 5, 8, 6], &[(0, 1), (0, 1), (0, 1)]),
        (&blanked, true, (5, 6), [5, 6, 5, 5, 5], &[]),
    ];
    for (sample, of_original, asked, numbers, alignments) in worked {
        slice(tally, sample, of_original, asked, notes::rooms);
        let cut = expected(sample, of_original, asked).expect("a worked note is accepted");
        let theirs: Vec<(Offset, Offset)> = cut.starts.into_iter().zip(cut.ends).collect();
        let differs = cut.answer != Sliced::accepted(numbers) || theirs != alignments;
        tally.case("accepted", differs, || format!("wanted {numbers:?} at {alignments:?}, theirs {:?}", cut.answer));
    }
    let mut emptied = NormalizedString::from("abc");
    emptied.filter(|_| false);
    let emptied = Sample::from(emptied);
    let refused =
        [(&emptied, true, (1, 1), MISSING), (&fresh, true, (3, 1), MISSING), (&fresh, false, (2, 9), NOT_BOUNDARY)];
    for (sample, of_original, asked, refusal) in refused {
        slice(tally, sample, of_original, asked, notes::rooms);
        let theirs = expected(sample, of_original, asked).err();
        tally.case(tally::refusal(refusal), theirs != Some(refusal), || format!("wanted {refusal}, theirs {theirs:?}"));
    }
}

fn every_sound_note(tally: &mut Tally) {
    tally.family("every sound note with texts of up to 4 bytes, every range to two past each text and far ones");
    for sample in sound_notes() {
        slice_every_range(tally, &sample);
    }
}

fn every_range(tally: &mut Tally) {
    tally.family("every range of notes of any make to 40 bytes");
    let mut random = Random::new(80);
    for _ in 0..200 {
        let len = random.below(40);
        slice_every_range(tally, &Sample::from(samples::any(len, &mut random)));
    }
}

fn every_room(tally: &mut Tally) {
    tally.family("starting notes of up to 4 bytes, every range, in every two rooms to 6");
    for text in ["", "a", "é", "ab", "aé", "漢", "aéb", "😀"] {
        let sample = Sample::from(NormalizedString::from(text));
        for of_original in [false, true] {
            for asked in ranges_to(text.len() + 1) {
                slice(tally, &sample, of_original, asked, |_| every::pair(6).collect());
            }
        }
    }
}

/// A range off place, one that converts to nothing, and rooms that are too small come after the faults of a note.
fn every_set_of_faults(tally: &mut Tally) {
    tally.family("every set of faults out of nine, ranges of every answer, in every two rooms of 0 and 4");
    for sample in samples_with_faults() {
        for of_original in [false, true] {
            for asked in [(0, 1), (1, 1), (0, 4), (2, 3), (4, 0), (4, 2), (2, 900), (900, 900), (0, u32::MAX)] {
                slice(tally, &sample, of_original, asked, |_| vec![(4, 4), (0, 4), (4, 0), (0, 0)]);
            }
        }
    }
}

fn around_blocks(tally: &mut Tally) {
    tally.family("starting and scattered notes of 600 bytes, ranges with both ends within two of every multiple of 64");
    let mut random = Random::new(81);
    let ends: Vec<u32> = (0..=9).flat_map(|block| (0..5).map(move |by| (64 * block + by).max(2) - 2)).collect();
    for unit in UNITS {
        let text = texts::repeated(unit, 600);
        let scattered = samples::scattered(texts::repeated("é漢", 700), text.clone(), &mut random);
        for sample in [NormalizedString::from(text), scattered].map(Sample::from) {
            for of_original in [false, true] {
                for (i, &start) in ends.iter().enumerate() {
                    for &end in &ends[i..] {
                        slice(tally, &sample, of_original, (start, end), ample);
                    }
                }
            }
        }
    }
}

fn around_the_limit(tally: &mut Tally) {
    tally.family("texts about the limit, shifts to the limit, ranges at their ends, in all rooms");
    const LAST: Offset = LIMIT as Offset - 1;
    let limit = LIMIT as u32;
    for (original, normalized) in every::pair(3) {
        let (original, normalized) = (LIMIT - 1 + original, LIMIT - 1 + normalized);
        for alignment in [(0, 0), (9, LAST), (LAST, LAST)] {
            let note = samples::uniform(original, normalized, alignment);
            for shift in [0, (LIMIT + 1).saturating_sub(original), usize::MAX] {
                let sample = Sample::from(Note { original_shift: shift as u32, ..note.clone() });
                for asked in
                    [(0, limit - 1), (9, limit), (limit - 1, limit), (limit, limit), (9, limit + 1), (0, u32::MAX)]
                {
                    slice(tally, &sample, false, asked, notes::rooms);
                    slice(tally, &sample, true, asked, notes::rooms);
                }
            }
        }
    }
}

/// The shift is answered with 32 bits, and an empty range adds its own number to it, also past the transcript.
fn shifts_past_the_limit(tally: &mut Tally) {
    tally.family("shifts at the limit beside short transcripts: empty cleaned slices at every place, and others");
    for (original, normalized) in [("", "aéb"), ("q", "aéb"), ("ů", "漢😀漢"), ("", "")] {
        for note in samples::sound_notes(original, normalized) {
            for back in 0..3 {
                let original_shift = (LIMIT - original.len() - back) as u32;
                slice_every_range(tally, &Sample::from(Note { original_shift, ..note.clone() }));
            }
        }
    }
    let long = Note { original_shift: LIMIT as u32, ..samples::uniform(0, LIMIT, (0, 0)) };
    let sample = Sample::from(long);
    for at in [0, 1, LIMIT as u32 - 1, LIMIT as u32, LIMIT as u32 + 1] {
        slice(tally, &sample, false, (at, at), notes::rooms);
        slice(tally, &sample, true, (at, at), notes::rooms);
    }
}

fn edited_notes(tally: &mut Tally) {
    tally.family("any ranges of notes that the Rust original edited, to 300 bytes, in any of 9 rooms");
    let mut random = Random::new(82);
    for _ in 0..4_000 {
        let len = random.below(300);
        let sample = Sample::from(samples::edited(len, &mut random));
        slice_any_ranges(tally, &sample, 20, &mut random);
    }
}

fn damaged_notes(tally: &mut Tally) {
    tally.family("any ranges of notes of any make to 300 bytes, whole and with each damage, or with two");
    let mut random = Random::new(83);
    for _ in 0..600 {
        let len = random.below(300);
        let note = Note::from(&samples::any(len, &mut random));
        slice_any_ranges(tally, &Sample::from(note.clone()), 10, &mut random);
        for (_, damaged) in samples::damaged(&note) {
            slice_any_ranges(tally, &Sample::from(damaged), 2, &mut random);
        }
        if note.normalized.is_empty() {
            continue;
        }
        let offset = random.below(note.normalized.len());
        for (_, mut damaged) in samples::damaged_at(&note, offset) {
            slice_any_ranges(tally, &Sample::from(damaged.clone()), 2, &mut random);
            random.choose(&DAMAGES).1(&mut damaged);
            slice_any_ranges(tally, &Sample::from(damaged), 1, &mut random);
        }
    }
}

fn long_notes(tally: &mut Tally) {
    tally.family("any ranges of notes of any make up to the limit, whole and damaged, in any of 9 rooms");
    let mut random = Random::new(84);
    for turn in 0..120 {
        let len = samples::long_len(turn, 2, &mut random);
        let mut note = Note::from(&samples::any(len, &mut random));
        slice_any_ranges(tally, &Sample::from(note.clone()), 30, &mut random);
        if !note.normalized.is_empty() {
            let offset = random.below(note.normalized.len());
            random.choose(&DAMAGES_AT).1(&mut note, offset);
            slice_any_ranges(tally, &Sample::from(note), 4, &mut random);
        }
    }
}

/// What is left of a note is passed again.
fn slices_of_slices(tally: &mut Tally) {
    tally.family("any slice of any note to 300 bytes, and any ranges of it");
    let mut random = Random::new(85);
    for _ in 0..4_000 {
        let len = random.below(300);
        let sample = Sample::from(samples::any(len, &mut random));
        let of_original = random.below(2) == 0;
        let asked = sample.any_range(of_original, &mut random);
        let Ok(note) = sample.theirs() else { continue };
        if let Some(slice) = note.slice(range(of_original, asked)) {
            slice_any_ranges(tally, &Sample::from(slice), 5, &mut random);
        }
    }
}

fn nothing_anywhere(tally: &mut Tally) {
    tally.family("nothing passed, at any pointer");
    let nothing = Sample::from(NormalizedString::from(""));
    for address in ADDRESSES {
        let column = address as *mut Offset;
        for of_original in [false, true] {
            for asked in ranges_to(2) {
                let ours = unsafe {
                    pass!(library::zulmyren_slice; plain address as *const u8, plain 0, plain address as *const u8,
                        plain 0, plain column, plain 0, plain column, plain 0, plain 0, plain of_original,
                        plain asked.0, plain asked.1, plain column, plain 0, plain column, plain 0)
                };
                let theirs = expected(&nothing, of_original, asked).map_or_else(Sliced::refused, |cut| cut.answer);
                tally.case(tally::refusal(ours.refusal), ours != theirs, || {
                    format!("ours {ours:?}, theirs {theirs:?}, on {asked:?} of nothing at {address:#x}")
                });
            }
        }
    }
}

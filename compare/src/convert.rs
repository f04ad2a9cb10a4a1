//! Converting and reading: ranges of one text of a note in the other, beside `NormalizedString`, and parts of a text,
//! beside `str::get`.

use crate::every;
use crate::library::{self, pass, Offsets, RangeCall};
use crate::lists::{self, List};
use crate::note::{Note, Offset};
use crate::random::Random;
use crate::ranges::{range, ranges_to, samples_with_faults, sound_notes, Bytes, Sample, FAR};
use crate::refusals::{ILL_FORMED, MISSING, TOO_LONG};
use crate::samples::{self, ADDRESSES, DAMAGES, DAMAGES_AT};
use crate::tally::{self, hex, Report, Tally};
use crate::texts::{self, KINDS, LIMIT};
use std::str::from_utf8;
use tokenizers::normalizer::Range;
use tokenizers::NormalizedString;

/// What the Rust original found: a range, and where it hands out a part of a text, that part.
type Found<'a> = Option<(Bytes, Option<&'a str>)>;

/// A call on a note and a range.
pub struct Call {
    name: &'static str,
    beside: &'static str,
    ours: RangeCall,
    theirs: fn(&NormalizedString, Range<Bytes>) -> Found<'_>,
    /// The text that it hands out parts of.
    reads: fn(&Note) -> &[u8],
}

pub const CONVERT_OFFSETS: Call = Call {
    name: "zulmyren_convert_offsets",
    beside: "NormalizedString::convert_offsets",
    ours: library::zulmyren_convert_offsets,
    theirs: |note, range| note.convert_offsets(range).map(|range| (range, None)),
    reads: |_| &[],
};

pub const GET_RANGE: Call = Call {
    name: "zulmyren_get_range",
    beside: "NormalizedString::get_range",
    ours: library::zulmyren_get_range,
    theirs: |note, range| note.get_range(range).map(|part| (place(note.get(), part), Some(part))),
    reads: |note| &note.normalized,
};

pub const GET_RANGE_ORIGINAL: Call = Call {
    name: "zulmyren_get_range_original",
    beside: "NormalizedString::get_range_original",
    ours: library::zulmyren_get_range_original,
    theirs: |note, range| note.get_range_original(range).map(|part| (place(note.get_original(), part), Some(part))),
    reads: |note| &note.original,
};

/// Where the part is in the text that it is a part of.
fn place(text: &str, part: &str) -> Bytes {
    let start = part.as_ptr() as usize - text.as_ptr() as usize;
    start..start + part.len()
}

pub fn compare(report: &mut Report) {
    for call in [CONVERT_OFFSETS, GET_RANGE, GET_RANGE_ORIGINAL] {
        report.call(call.name, call.beside, |tally| {
            every_sound_note(tally, &call);
            every_range(tally, &call);
            every_set_of_faults(tally, &call);
            sizes_around_the_limit(tally, &call);
            edited_notes(tally, &call);
            any_notes(tally, &call);
            long_notes(tally, &call);
            nothing_anywhere(tally, &call);
        });
    }
    report.call("zulmyren_part_verdict", "str::get", |tally| {
        parts_of_two_bytes(tally);
        parts_of_four_characters(tally);
        parts_around_the_limit(tally);
        parts_of_any_texts(tally);
    });
    report.call("zulmyren_convert_all", "convert_offsets, ours and theirs", |tally| {
        lists_on_every_sound_note(tally);
        lists_in_every_room(tally);
        lists_on_any_notes(tally);
        lists_on_long_notes(tally);
        long_lists(tally);
        no_list_anywhere(tally);
    });
}

/// Our answer as it has to be, and the part that the Rust original hands out.
pub fn expected<'a>(
    sample: &'a Sample,
    call: &Call,
    of_original: bool,
    (start, end): (u32, u32),
) -> (Offsets, Option<&'a str>) {
    match sample.theirs() {
        Err(refusal) => (Offsets::refused(refusal), None),
        Ok(note) => {
            let (found, part) = (call.theirs)(note, range(of_original, (start, end))).unzip();
            (Offsets::of(found.map(|found| (found.start, found.end))), part.flatten())
        }
    }
}

fn convert(tally: &mut Tally, call: &Call, sample: &Sample, of_original: bool, (start, end): (u32, u32)) {
    let ours = library::on_range(call.ours, &sample.note, of_original, start, end);
    let (theirs, part) = expected(sample, call, of_original, (start, end));
    let our_part = (call.reads)(&sample.note).get(ours.start as usize..ours.end as usize);
    let parts_differ = part.is_some_and(|part| our_part != Some(part.as_bytes()));
    tally.case(tally::refusal(ours.refusal), ours != theirs || parts_differ, || {
        let text = if of_original { "original" } else { "normalized" };
        let note = &sample.note;
        format!(
            "ours {ours:?}, theirs {theirs:?} with the part {part:?}, on {start}..{end} of the {text} text of {note}"
        )
    });
}

/// Every range of both texts with ends up to two past the text, or far past it.
fn convert_every_range(tally: &mut Tally, call: &Call, sample: &Sample) {
    for of_original in [false, true] {
        for range in ranges_to(sample.text(of_original).len() + 2) {
            convert(tally, call, sample, of_original, range);
        }
    }
}

pub fn convert_any_ranges(tally: &mut Tally, call: &Call, sample: &Sample, count: usize, random: &mut Random) {
    for of_original in [false, true] {
        for _ in 0..count {
            convert(tally, call, sample, of_original, sample.any_range(of_original, random));
        }
    }
}

fn every_sound_note(tally: &mut Tally, call: &Call) {
    tally.family("every sound note with texts of up to 4 bytes, every range to two past each text and far ones");
    for sample in sound_notes() {
        assert_eq!(sample.refusal(), 0, "{}", sample.note);
        convert_every_range(tally, call, &sample);
    }
}

fn every_range(tally: &mut Tally, call: &Call) {
    tally.family("every range of notes of any make to 40 bytes");
    let mut random = Random::new(10);
    for _ in 0..200 {
        let len = random.below(40);
        let sample = Sample::from(samples::any(len, &mut random));
        convert_every_range(tally, call, &sample);
    }
}

/// Faults of the note, and ranges that convert to nothing: `MISSING` comes after them all.
fn every_set_of_faults(tally: &mut Tally, call: &Call) {
    tally.family("every set of faults out of nine, with ranges that convert and that do not");
    for sample in samples_with_faults() {
        for of_original in [false, true] {
            for range in [(0, 1), (1, 1), (0, 3), (3, 0), (2, 900), (900, 900), (0, u32::MAX), (u32::MAX, 0)] {
                convert(tally, call, &sample, of_original, range);
            }
        }
    }
}

fn sizes_around_the_limit(tally: &mut Tally, call: &Call) {
    tally.family("texts about the limit, shifts to the limit, ranges at their ends");
    const LAST: Offset = LIMIT as Offset - 1;
    let limit = LIMIT as u32;
    for (original, normalized) in every::pair(3) {
        let (original, normalized) = (LIMIT - 1 + original, LIMIT - 1 + normalized);
        for alignment in [(0, 0), (9, LAST), (LAST, LAST)] {
            let note = samples::uniform(original, normalized, alignment);
            for shift in [0, (LIMIT + 1).saturating_sub(original), usize::MAX] {
                let sample = Sample::from(Note { original_shift: shift as u32, ..note.clone() });
                for range in [
                    (0, limit - 2),
                    (9, limit - 1),
                    (limit - 1, limit),
                    (9, limit + 1),
                    (limit + 1, limit + 1),
                    (0, u32::MAX),
                ] {
                    convert(tally, call, &sample, false, range);
                    convert(tally, call, &sample, true, range);
                }
            }
        }
    }
}

fn edited_notes(tally: &mut Tally, call: &Call) {
    tally.family("any ranges of notes that the Rust original edited, to 300 bytes");
    let mut random = Random::new(11);
    for _ in 0..4_000 {
        let len = random.below(300);
        let sample = Sample::from(samples::edited(len, &mut random));
        convert_any_ranges(tally, call, &sample, 20, &mut random);
    }
}

fn any_notes(tally: &mut Tally, call: &Call) {
    tally.family("any ranges of notes of any make to 300 bytes, whole and with each damage, or with two");
    let mut random = Random::new(12);
    for _ in 0..1_500 {
        let len = random.below(300);
        let note = Note::from(&samples::any(len, &mut random));
        convert_any_ranges(tally, call, &Sample::from(note.clone()), 10, &mut random);
        for (_, damaged) in samples::damaged(&note) {
            convert_any_ranges(tally, call, &Sample::from(damaged), 2, &mut random);
        }
        if note.normalized.is_empty() {
            continue;
        }
        let offset = random.below(note.normalized.len());
        for (_, mut damaged) in samples::damaged_at(&note, offset) {
            convert_any_ranges(tally, call, &Sample::from(damaged.clone()), 2, &mut random);
            random.choose(&DAMAGES).1(&mut damaged);
            convert_any_ranges(tally, call, &Sample::from(damaged), 1, &mut random);
        }
    }
}

fn long_notes(tally: &mut Tally, call: &Call) {
    tally.family("any ranges of notes of any make up to the limit, whole and damaged");
    let mut random = Random::new(13);
    for turn in 0..150 {
        let len = samples::long_len(turn, 2, &mut random);
        let mut note = Note::from(&samples::any(len, &mut random));
        convert_any_ranges(tally, call, &Sample::from(note.clone()), 40, &mut random);
        if !note.normalized.is_empty() {
            let offset = random.below(note.normalized.len());
            random.choose(&DAMAGES_AT).1(&mut note, offset);
            convert_any_ranges(tally, call, &Sample::from(note), 4, &mut random);
        }
    }
}

fn nothing_anywhere(tally: &mut Tally, call: &Call) {
    tally.family("nothing passed, at any pointer");
    let nothing = Sample::from(NormalizedString::from(""));
    for address in ADDRESSES {
        let (text, column) = (address as *const u8, address as *const Offset);
        for of_original in [false, true] {
            for (start, end) in ranges_to(2) {
                let ours = unsafe { (call.ours)(text, 0, text, 0, column, 0, column, 0, 0, of_original, start, end) };
                let (theirs, _) = expected(&nothing, call, of_original, (start, end));
                tally.case(tally::refusal(ours.refusal), ours != theirs, || {
                    format!("ours {ours:?}, theirs {theirs:?}, on {start}..{end} of nothing at {address:#x}")
                });
            }
        }
    }
}

pub fn expected_part(original: &[u8], normalized: &[u8], of_original: bool, start: u32, end: u32) -> u32 {
    if original.len().max(normalized.len()) > LIMIT {
        return TOO_LONG;
    }
    let (Ok(original), Ok(normalized)) = (from_utf8(original), from_utf8(normalized)) else {
        return ILL_FORMED;
    };
    let text = if of_original { original } else { normalized };
    if text.get(start as usize..end as usize).is_some() {
        0
    } else {
        MISSING
    }
}

fn part(tally: &mut Tally, original: &[u8], normalized: &[u8], of_original: bool, (start, end): (u32, u32)) {
    let ours = library::part_verdict(original, normalized, of_original, start, end);
    let core = expected_part(original, normalized, of_original, start, end);
    tally.case(tally::refusal(ours), ours != core, || {
        let text = if of_original { "first" } else { "second" };
        let (original, normalized) = (hex(original), hex(normalized));
        format!("ours {ours}, core {core} on {start}..{end} of the {text} text of {original} and {normalized}")
    });
}

/// Every range of either text.
fn parts(tally: &mut Tally, original: &[u8], normalized: &[u8]) {
    for (of_original, text) in [(true, original), (false, normalized)] {
        for range in ranges_to(text.len() + 2) {
            part(tally, original, normalized, of_original, range);
        }
    }
}

fn parts_of_two_bytes(tally: &mut Tally) {
    tally.family("every two texts of up to 2 of 6 bytes, every range to two past each text and far ones");
    let texts = every::texts(b"a\xC3\xA9\xE6\xF0\xFF", 2);
    for original in &texts {
        for normalized in &texts {
            parts(tally, original, normalized);
        }
    }
}

fn parts_of_four_characters(tally: &mut Tally) {
    tally.family("every text of up to 4 characters of 1 to 4 bytes beside another, every range and far ones");
    for characters in every::list(&["", "a", "é", "漢", "😀"], 4) {
        let text = characters.concat().into_bytes();
        for other in ["", "a", "aé漢😀a"] {
            parts(tally, &text, other.as_bytes());
            parts(tally, other.as_bytes(), &text);
        }
    }
}

fn parts_around_the_limit(tally: &mut Tally) {
    tally.family("texts about the limit, whole and with the last byte damaged, ranges at their ends");
    let mut random = Random::new(14);
    for (one, other) in every::pair(5) {
        for kind in KINDS {
            let len = LIMIT - 2 + one;
            let original = texts::text(kind, len, &mut random).into_bytes();
            let normalized = texts::text(kind, LIMIT - 2 + other, &mut random).into_bytes();
            let mut damaged = original.clone();
            damaged[len - 1] = 0xC3;
            for of_original in [false, true] {
                for range in [(0, 0), (0, len), (len, len), (len, len + 1), (len + 1, len + 1), (len, 0), (0, len - 1)]
                {
                    let range = (range.0 as u32, range.1 as u32);
                    part(tally, &original, &normalized, of_original, range);
                    part(tally, &normalized, &original, of_original, range);
                    part(tally, &damaged, &normalized, of_original, range);
                    part(tally, &normalized, &damaged, of_original, range);
                }
            }
        }
    }
}

fn parts_of_any_texts(tally: &mut Tally) {
    tally.family("any range of texts of any length, whole and with one byte damaged");
    let mut random = Random::new(15);
    for turn in 0..1_000 {
        let longest = if turn % 10 == 0 { LIMIT } else { 300 };
        let mut any = || texts::text(*random.choose(&KINDS), random.below(longest), &mut random);
        let (original, normalized) = (any(), any());
        let mut damaged = original.clone().into_bytes();
        if !damaged.is_empty() {
            damaged[random.below(original.len())] = random.byte();
        }
        for _ in 0..20 {
            let (start, end) = any_part(&original, &mut random);
            part(tally, original.as_bytes(), normalized.as_bytes(), true, (start, end));
            part(tally, &damaged, normalized.as_bytes(), true, (start, end));
            let (start, end) = any_part(&normalized, &mut random);
            part(tally, original.as_bytes(), normalized.as_bytes(), false, (start, end));
            part(tally, &damaged, normalized.as_bytes(), false, (start, end));
        }
    }
}

fn any_part(text: &str, random: &mut Random) -> (u32, u32) {
    let mut end = || match random.below(5) {
        0 => random.below(text.len() + 3),
        1 => texts::any_boundary(text, random) + 1,
        _ => texts::any_boundary(text, random),
    } as u32;
    let (one, other) = (end(), end());
    match random.below(8) {
        0 => (one, other),
        1 => (one, *random.choose(&FAR)),
        _ => (one.min(other), one.max(other)),
    }
}

fn convert_list(tally: &mut Tally, sample: &Sample, of_original: bool, list: &List) {
    let text = if of_original { "original" } else { "normalized" };
    lists::case(
        tally,
        list,
        sample.refusal(),
        |from, to, out| library::convert_all(&sample.note, of_original, from, to, out),
        |from, to| library::convert_offsets(&sample.note, of_original, from, to),
        |from, to| expected(sample, &CONVERT_OFFSETS, of_original, (from, to)).0,
        || format!("the {text} text of {}", sample.note),
    );
}

fn lists_on_every_sound_note(tally: &mut Tally) {
    tally.family("every sound note with texts of up to 4 bytes, the list of every range of each text");
    for sample in sound_notes() {
        for of_original in [false, true] {
            let ranges = ranges_to(sample.text(of_original).len() + 2);
            convert_list(tally, &sample, of_original, &List::of(&ranges));
        }
    }
}

fn lists_in_every_room(tally: &mut Tally) {
    tally.family("every set of faults out of nine, lists of every two lengths to 3 in every three rooms to 4");
    for sample in samples_with_faults() {
        // Overlong texts once more with each list would only take time.
        let long = sample.note.original.len().max(sample.note.normalized.len()) > LIMIT;
        for list in lists::every_size([(0, 3), (5, 4), (900, 900)]).step_by(if long { 97 } else { 1 }) {
            convert_list(tally, &sample, false, &list);
            convert_list(tally, &sample, true, &list);
        }
    }
}

fn lists_on_any_notes(tally: &mut Tally) {
    tally.family("lists of up to 60 ranges on notes of any make to 300 bytes, whole and damaged, in any room");
    let mut random = Random::new(16);
    for _ in 0..6_000 {
        let len = random.below(300);
        let mut note = Note::from(&samples::any(len, &mut random));
        convert_any_list(tally, &Sample::from(note.clone()), 60, &mut random);
        if !note.normalized.is_empty() {
            let offset = random.below(note.normalized.len());
            random.choose(&DAMAGES_AT).1(&mut note, offset);
            convert_any_list(tally, &Sample::from(note.clone()), 60, &mut random);
        }
        random.choose(&DAMAGES).1(&mut note);
        convert_any_list(tally, &Sample::from(note), 60, &mut random);
    }
}

pub fn convert_any_list(tally: &mut Tally, sample: &Sample, longest: usize, random: &mut Random) {
    for of_original in [false, true] {
        let count = random.below(longest + 1);
        let ranges: Vec<(u32, u32)> = (0..count).map(|_| sample.any_range(of_original, random)).collect();
        convert_list(tally, sample, of_original, &List::any(&ranges, random));
    }
}

fn lists_on_long_notes(tally: &mut Tally) {
    tally.family("lists of up to 100 ranges on notes of any make up to the limit, in any room");
    let mut random = Random::new(17);
    for turn in 0..60 {
        let len = samples::long_len(turn, 2, &mut random);
        let sample = Sample::from(samples::any(len, &mut random));
        convert_any_list(tally, &sample, 100, &mut random);
    }
}

fn long_lists(tally: &mut Tally) {
    tally.family("lists of up to 100000 ranges on notes of any make to 100 bytes, in any room");
    let mut random = Random::new(18);
    for _ in 0..20 {
        let len = random.below(100);
        let sample = Sample::from(samples::any(len, &mut random));
        convert_any_list(tally, &sample, 100_000, &mut random);
    }
}

fn no_list_anywhere(tally: &mut Tally) {
    tally.family("no list, at any pointer");
    let sample = Sample::from(NormalizedString::from("aéb"));
    for address in ADDRESSES {
        let (list, numbers, column) = (address as *const u32, address as *mut u8, address as *mut u32);
        for of_original in [false, true] {
            let ours = unsafe {
                pass!(library::zulmyren_convert_all; note sample.note, plain of_original, plain list, plain 0,
                    plain list, plain 0, plain numbers, plain 0, plain column, plain 0, plain column, plain 0)
            };
            tally.case(tally::refusal(ours), ours != 0, || format!("ours {ours} on no list at {address:#x}"));
        }
    }
}

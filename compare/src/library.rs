//! The calls of the proved library: include/zulmyren.h in Rust, and each call over slices.

use crate::note::{Note, Offset};
use crate::refusals::MISSING;

/// Declares calls, or the type of some, by what they are passed: `note` for a note's nine arguments, `read` and `write`
/// for a buffer's pointer and length, `plain` for a number.
macro_rules! calls {
    ($($what:tt $name:ident($($passed:tt)*) -> $answer:ty;)*) => {
        $(calls!(@ $what $name -> $answer, [] $($passed)*);)*
    };
    (@ fn $name:ident -> $answer:ty, [$($c:ty),*]) => {
        #[link(name = "zulmyren", kind = "static")]
        extern "C" {
            pub fn $name($(_: $c),*) -> $answer;
        }
    };
    (@ type $name:ident -> $answer:ty, [$($c:ty),*]) => {
        pub type $name = unsafe extern "C" fn($($c),*) -> $answer;
    };
    (@ $what:tt $name:ident -> $answer:ty, [$($c:ty),*] note $(, $($passed:tt)*)?) => {
        calls!(@ $what $name -> $answer, [$($c,)*
            *const u8, usize, *const u8, usize, *const Offset, usize, *const Offset, usize, u32
        ] $($($passed)*)?);
    };
    (@ $what:tt $name:ident -> $answer:ty, [$($c:ty),*] read $t:ty $(, $($passed:tt)*)?) => {
        calls!(@ $what $name -> $answer, [$($c,)* *const $t, usize] $($($passed)*)?);
    };
    (@ $what:tt $name:ident -> $answer:ty, [$($c:ty),*] write $t:ty $(, $($passed:tt)*)?) => {
        calls!(@ $what $name -> $answer, [$($c,)* *mut $t, usize] $($($passed)*)?);
    };
    (@ $what:tt $name:ident -> $answer:ty, [$($c:ty),*] plain $t:ty $(, $($passed:tt)*)?) => {
        calls!(@ $what $name -> $answer, [$($c,)* $t] $($($passed)*)?);
    };
}

/// A call, passed what the same words say.
macro_rules! pass {
    (@ $call:expr, [$($c:expr),*]) => {
        $call($($c),*)
    };
    (@ $call:expr, [$($c:expr),*] note $note:expr $(, $($passed:tt)*)?) => {
        pass!(@ $call, [$($c),*]
            read $note.original, read $note.normalized, read $note.starts, read $note.ends, plain $note.original_shift
            $(, $($passed)*)?)
    };
    (@ $call:expr, [$($c:expr),*] read $buffer:expr $(, $($passed:tt)*)?) => {
        pass!(@ $call, [$($c,)* $buffer.as_ptr(), $buffer.len()] $($($passed)*)?)
    };
    (@ $call:expr, [$($c:expr),*] write $buffer:expr $(, $($passed:tt)*)?) => {
        pass!(@ $call, [$($c,)* $buffer.as_mut_ptr(), $buffer.len()] $($($passed)*)?)
    };
    (@ $call:expr, [$($c:expr),*] plain $number:expr $(, $($passed:tt)*)?) => {
        pass!(@ $call, [$($c,)* $number] $($($passed)*)?)
    };
    ($call:expr; $($passed:tt)*) => {
        pass!(@ $call, [] $($passed)*)
    };
}

pub(crate) use pass;

calls! {
    fn zulmyren_well_formed(read u8) -> bool;
    fn zulmyren_letter_count(read u8, plain u32, plain u32) -> Count;
    fn zulmyren_check_note(note) -> u32;
    fn zulmyren_from_text(read u8, write Offset, write Offset) -> u32;
    type RangeCall(note, plain bool, plain u32, plain u32) -> Offsets;
    fn zulmyren_convert_offsets(note, plain bool, plain u32, plain u32) -> Offsets;
    fn zulmyren_get_range(note, plain bool, plain u32, plain u32) -> Offsets;
    fn zulmyren_get_range_original(note, plain bool, plain u32, plain u32) -> Offsets;
    fn zulmyren_part_verdict(read u8, read u8, plain bool, plain u32, plain u32) -> u32;
    fn zulmyren_convert_all(note, plain bool, read u32, read u32, write u8, write u32, write u32) -> u32;
    fn zulmyren_char_offsets(read u8, plain u32, plain u32) -> Offsets;
    fn zulmyren_char_offsets_all(read u8, read u32, read u32, write u8, write u32, write u32) -> u32;
    fn zulmyren_find_matches(read u8, read u8, write u8) -> Written;
    fn zulmyren_replace(note, read u8, read u8, write u8, write Offset, write Offset) -> Written;
    fn zulmyren_replace_by_edits(
        note, read u8, read u8, write u8, write Offset, write Offset,
        write u8, write Offset, write Offset, write u8, write Offset, write Offset
    ) -> Written;
    fn zulmyren_redact(read u8, read u8, read u8, write u8, write Offset, write Offset) -> Redaction;
    fn zulmyren_redact_note(note, read u8, read u8, write u8, write u8, write Offset, write Offset) -> Redaction;
    fn zulmyren_redact_all(
        note, read u8, read u32, write u8, write Offset, write Offset, write u32, write u32, write u32
    ) -> Redactions;
    fn zulmyren_published_alike(note, note, read u8, read u8) -> Comparison;
    fn zulmyren_slice(note, plain bool, plain u32, plain u32, write Offset, write Offset) -> Sliced;
    fn zulmyren_split(
        note, read u8, plain u32, plain bool,
        write Offset, write Offset, write u32, write Offset, write Offset, write Offset
    ) -> Cut;
    fn zulmyren_get_splits(note, read u8, plain u32, plain bool, plain bool, write u32, write u32) -> Written;
    fn zulmyren_transform_range(
        note, plain bool, plain u32, plain u32, read u8, plain u32, write u8, write Offset, write Offset
    ) -> Written;
    fn zulmyren_transform(note, read u8, plain u32, write u8, write Offset, write Offset) -> Written;
    fn zulmyren_map(note, read u32, write u8, write Offset, write Offset) -> Written;
    fn zulmyren_filter(note, read u8, write u8, write Offset, write Offset) -> Written;
    fn zulmyren_append(note, read u8, write u8, write Offset, write Offset) -> Written;
    fn zulmyren_prepend(note, read u8, write u8, write Offset, write Offset) -> Written;
    fn zulmyren_clear(note, write u8, write Offset, write Offset) -> Cleared;
    fn zulmyren_lowercase(note, write u8, write Offset, write Offset) -> Written;
}

/// How many letters there are, or a refusal beside 0.
#[repr(C)]
#[derive(Clone, Copy, Debug, PartialEq, Eq)]
pub struct Count {
    pub refusal: u32,
    pub count: u32,
}

/// How many elements the result has: bytes of a text or of a match list, or pieces; or a refusal beside 0.
#[repr(C)]
#[derive(Clone, Copy, Debug, PartialEq, Eq)]
pub struct Written {
    pub refusal: u32,
    pub len: usize,
}

/// How long a cleaned text was and is, or a refusal beside 0 and 0.
#[repr(C)]
#[derive(Clone, Copy, Debug, PartialEq, Eq)]
pub struct Cleared {
    pub refusal: u32,
    pub before_len: usize,
    pub len: usize,
}

/// How many bytes are published, and how many matches gave way; or a refusal beside 0 and 0.
#[repr(C)]
#[derive(Clone, Copy, Debug, PartialEq, Eq)]
pub struct Redaction {
    pub refusal: u32,
    pub len: usize,
    pub matches: usize,
}

/// How many bytes are published; how many literals were not found, how many can still be read, and how many fillers the
/// note had already; or a refusal beside 0s.
#[repr(C)]
#[derive(Clone, Copy, Debug, Default, PartialEq, Eq)]
pub struct Redactions {
    pub refusal: u32,
    pub len: usize,
    pub not_found: usize,
    pub left: usize,
    pub fillers_found: usize,
}

/// Whether two notes are published alike, or a refusal beside `false`.
#[repr(C)]
#[derive(Clone, Copy, Debug, PartialEq, Eq)]
pub struct Comparison {
    pub refusal: u32,
    pub alike: bool,
}

#[repr(C)]
#[derive(Clone, Copy, Debug, PartialEq, Eq)]
pub struct Offsets {
    pub refusal: u32,
    pub start: u32,
    pub end: u32,
}

impl Offsets {
    pub fn refused(refusal: u32) -> Self {
        Offsets { refusal, start: 0, end: 0 }
    }

    /// 0 beside the two numbers, or a refusal where there are none.
    pub fn of<T: TryInto<u32>>(numbers: Option<(T, T)>) -> Self {
        let narrow = |number: T| number.try_into().ok().expect("a number of 32 bits");
        match numbers {
            Some((start, end)) => Offsets { refusal: 0, start: narrow(start), end: narrow(end) },
            None => Offsets::refused(MISSING),
        }
    }
}

/// A slice: which bytes of the transcript and which of the cleaned text it has, and its shift; or a refusal beside 0.
#[repr(C)]
#[derive(Clone, Copy, Debug, PartialEq, Eq)]
pub struct Sliced {
    pub refusal: u32,
    pub original_start: u32,
    pub original_end: u32,
    pub normalized_start: u32,
    pub normalized_end: u32,
    pub original_shift: u32,
}

impl Sliced {
    pub fn refused(refusal: u32) -> Self {
        Sliced { refusal, ..Sliced::accepted([0; 5]) }
    }

    pub fn accepted(
        [original_start, original_end, normalized_start, normalized_end, original_shift]: [u32; 5],
    ) -> Self {
        Sliced { refusal: 0, original_start, original_end, normalized_start, normalized_end, original_shift }
    }

    pub fn original(&self) -> (u32, u32) {
        (self.original_start, self.original_end)
    }

    pub fn normalized(&self) -> (u32, u32) {
        (self.normalized_start, self.normalized_end)
    }
}

/// How many pieces there are, and how many alignments they have in all; or a refusal beside 0.
#[repr(C)]
#[derive(Clone, Copy, Debug, PartialEq, Eq)]
pub struct Cut {
    pub refusal: u32,
    pub len: usize,
    pub alignments_len: usize,
}

/// The buffers for the answers to a list: one of each per pair.
pub struct Columns<'a> {
    pub numbers: &'a mut [u8],
    pub starts: &'a mut [u32],
    pub ends: &'a mut [u32],
}

/// The buffers for a published note.
pub struct Publishing<'a> {
    pub text: &'a mut [u8],
    pub starts: &'a mut [Offset],
    pub ends: &'a mut [Offset],
}

/// The buffers for the counts of pairs: one of each per pair.
pub struct PairCounts<'a> {
    pub blanked: &'a mut [u32],
    pub left: &'a mut [u32],
    pub fillers: &'a mut [u32],
}

/// The buffers for pieces: a number of each for every piece, and two for every alignment.
pub struct Cutting<'a> {
    pub starts: &'a mut [Offset],
    pub ends: &'a mut [Offset],
    pub shifts: &'a mut [u32],
    pub lengths: &'a mut [Offset],
    pub alignment_starts: &'a mut [Offset],
    pub alignment_ends: &'a mut [Offset],
}

pub fn well_formed(text: &[u8]) -> bool {
    unsafe { pass!(zulmyren_well_formed; read text) }
}

pub fn letter_count(text: &[u8], start: u32, end: u32) -> Count {
    unsafe { pass!(zulmyren_letter_count; read text, plain start, plain end) }
}

pub fn check_note(note: &Note) -> u32 {
    unsafe { pass!(zulmyren_check_note; note note) }
}

pub fn from_text(text: &[u8], starts: &mut [Offset], ends: &mut [Offset]) -> u32 {
    unsafe { pass!(zulmyren_from_text; read text, write starts, write ends) }
}

pub fn convert_offsets(note: &Note, of_original: bool, start: u32, end: u32) -> Offsets {
    on_range(zulmyren_convert_offsets, note, of_original, start, end)
}

pub fn on_range(call: RangeCall, note: &Note, of_original: bool, start: u32, end: u32) -> Offsets {
    unsafe { pass!(call; note note, plain of_original, plain start, plain end) }
}

pub fn part_verdict(original: &[u8], normalized: &[u8], of_original: bool, start: u32, end: u32) -> u32 {
    unsafe { pass!(zulmyren_part_verdict; read original, read normalized, plain of_original, plain start, plain end) }
}

pub fn convert_all(note: &Note, of_original: bool, from: &[u32], to: &[u32], out: Columns) -> u32 {
    unsafe {
        pass!(zulmyren_convert_all; note note, plain of_original, read from, read to,
            write out.numbers, write out.starts, write out.ends)
    }
}

pub fn char_offsets(text: &[u8], start: u32, end: u32) -> Offsets {
    unsafe { pass!(zulmyren_char_offsets; read text, plain start, plain end) }
}

pub fn char_offsets_all(text: &[u8], starts: &[u32], ends: &[u32], out: Columns) -> u32 {
    unsafe {
        pass!(zulmyren_char_offsets_all; read text, read starts, read ends,
            write out.numbers, write out.starts, write out.ends)
    }
}

pub fn find_matches(text: &[u8], literal: &[u8], out: &mut [u8]) -> Written {
    unsafe { pass!(zulmyren_find_matches; read text, read literal, write out) }
}

pub fn transform_range(
    note: &Note,
    (of_original, start, end): (bool, u32, u32),
    script: &[u8],
    initial_offset: u32,
    out: Publishing,
) -> Written {
    unsafe {
        pass!(zulmyren_transform_range; note note, plain of_original, plain start, plain end, read script,
            plain initial_offset, write out.text, write out.starts, write out.ends)
    }
}

pub fn transform(note: &Note, script: &[u8], initial_offset: u32, out: Publishing) -> Written {
    unsafe {
        pass!(zulmyren_transform; note note, read script, plain initial_offset, write out.text, write out.starts,
            write out.ends)
    }
}

pub fn map(note: &Note, codes: &[u32], out: Publishing) -> Written {
    unsafe { pass!(zulmyren_map; note note, read codes, write out.text, write out.starts, write out.ends) }
}

pub fn filter(note: &Note, flags: &[u8], out: Publishing) -> Written {
    unsafe { pass!(zulmyren_filter; note note, read flags, write out.text, write out.starts, write out.ends) }
}

pub fn append(note: &Note, string: &[u8], out: Publishing) -> Written {
    unsafe { pass!(zulmyren_append; note note, read string, write out.text, write out.starts, write out.ends) }
}

pub fn prepend(note: &Note, string: &[u8], out: Publishing) -> Written {
    unsafe { pass!(zulmyren_prepend; note note, read string, write out.text, write out.starts, write out.ends) }
}

pub fn clear(note: &Note, out: Publishing) -> Cleared {
    unsafe { pass!(zulmyren_clear; note note, write out.text, write out.starts, write out.ends) }
}

pub fn lowercase(note: &Note, out: Publishing) -> Written {
    unsafe { pass!(zulmyren_lowercase; note note, write out.text, write out.starts, write out.ends) }
}

pub fn replace(note: &Note, list: &[u8], filler: &[u8], out: Publishing) -> Written {
    unsafe {
        pass!(zulmyren_replace; note note, read list, read filler, write out.text, write out.starts, write out.ends)
    }
}

/// The last two are scratch.
pub fn replace_by_edits(
    note: &Note,
    list: &[u8],
    filler: &[u8],
    out: Publishing,
    [first, second]: [Publishing; 2],
) -> Written {
    unsafe {
        pass!(zulmyren_replace_by_edits; note note, read list, read filler, write out.text, write out.starts,
            write out.ends, write first.text, write first.starts, write first.ends, write second.text,
            write second.starts, write second.ends)
    }
}

pub fn redact(text: &[u8], literal: &[u8], filler: &[u8], out: Publishing) -> Redaction {
    unsafe {
        pass!(zulmyren_redact; read text, read literal, read filler, write out.text, write out.starts, write out.ends)
    }
}

pub fn redact_note(note: &Note, literal: &[u8], filler: &[u8], list: &mut [u8], out: Publishing) -> Redaction {
    unsafe {
        pass!(zulmyren_redact_note; note note, read literal, read filler, write list, write out.text, write out.starts,
            write out.ends)
    }
}

pub fn redact_all(note: &Note, words: &[u8], sizes: &[u32], out: Publishing, counts: PairCounts) -> Redactions {
    unsafe {
        pass!(zulmyren_redact_all; note note, read words, read sizes, write out.text, write out.starts, write out.ends,
            write counts.blanked, write counts.left, write counts.fillers)
    }
}

pub fn published_alike(one: &Note, other: &Note, list: &[u8], filler: &[u8]) -> Comparison {
    unsafe { pass!(zulmyren_published_alike; note one, note other, read list, read filler) }
}

pub fn slice(
    note: &Note,
    of_original: bool,
    (start, end): (u32, u32),
    starts: &mut [Offset],
    ends: &mut [Offset],
) -> Sliced {
    unsafe { pass!(zulmyren_slice; note note, plain of_original, plain start, plain end, write starts, write ends) }
}

pub fn split(note: &Note, list: &[u8], behavior: u32, drop_empty: bool, out: Cutting) -> Cut {
    unsafe {
        pass!(zulmyren_split; note note, read list, plain behavior, plain drop_empty, write out.starts, write out.ends,
            write out.shifts, write out.lengths, write out.alignment_starts, write out.alignment_ends)
    }
}

pub fn get_splits(
    note: &Note,
    list: &[u8],
    behavior: u32,
    [of_original, characters]: [bool; 2],
    starts: &mut [u32],
    ends: &mut [u32],
) -> Written {
    unsafe {
        pass!(zulmyren_get_splits; note note, read list, plain behavior, plain of_original, plain characters,
            write starts, write ends)
    }
}

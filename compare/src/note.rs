//! A note as the library takes it, and a second check of its soundness, written from docs/RULES.md over `core::str`.

use crate::refusals::{ILL_FORMED, LENGTH_MISMATCH, MISALIGNED, TOO_LONG};
use crate::tally::{hex, numbers};
use crate::texts::LIMIT;
use std::fmt;
use tokenizers::NormalizedString;

/// The element of an alignment column, and of a column of pieces: a position in a text, or a length.
pub type Offset = u16;

/// A position as a column has it.
pub fn offset(position: usize) -> Offset {
    Offset::try_from(position).expect("a position of a text within the limit")
}

/// The position that a column has.
pub fn position(offset: Offset) -> usize {
    offset as usize
}

#[derive(Clone, Default, PartialEq)]
pub struct Note {
    pub original: Vec<u8>,
    pub normalized: Vec<u8>,
    pub starts: Vec<Offset>,
    pub ends: Vec<Offset>,
    pub original_shift: u32,
}

impl From<&NormalizedString> for Note {
    fn from(note: &NormalizedString) -> Self {
        Note {
            original: note.get_original().into(),
            normalized: note.get().into(),
            starts: note.alignments().iter().map(|&(start, _)| offset(start)).collect(),
            ends: note.alignments().iter().map(|&(_, end)| offset(end)).collect(),
            original_shift: note.original_shift() as u32,
        }
    }
}

impl Note {
    /// 0, or the first refusal met.
    pub fn refusal(&self) -> u32 {
        let shifted = self.original_shift as usize + self.original.len();
        if self.normalized.len().max(shifted) > LIMIT {
            return TOO_LONG;
        }
        let bytes = self.normalized.len();
        if (self.starts.len(), self.ends.len()) != (bytes, bytes) {
            return LENGTH_MISMATCH;
        }
        match (std::str::from_utf8(&self.original), std::str::from_utf8(&self.normalized)) {
            (Ok(original), Ok(normalized)) if self.is_sound(original, normalized) => 0,
            (Ok(_), Ok(_)) => MISALIGNED,
            _ => ILL_FORMED,
        }
    }

    fn is_sound(&self, original: &str, normalized: &str) -> bool {
        let alignments: Vec<(Offset, Offset)> = self.alignments().collect();
        // `str::get` is there for start ≤ end ≤ length, both on character boundaries, and for nothing else.
        let inside = alignments.iter().all(|&(start, end)| original.get(position(start)..position(end)).is_some());
        let whole = normalized.char_indices().all(|(at, character)| {
            let of_character = &alignments[at..at + character.len_utf8()];
            of_character.iter().all(|alignment| *alignment == of_character[0])
        });
        inside && whole && self.starts.is_sorted() && self.ends.is_sorted()
    }

    /// As the Rust original holds it, where both texts are well-formed.
    pub fn of_the_original(&self) -> NormalizedString {
        let text = |bytes: &[u8]| std::str::from_utf8(bytes).expect("a checked text").to_owned();
        let alignments = self.alignments().map(|(start, end)| (position(start), position(end))).collect();
        let (original, normalized) = (text(&self.original), text(&self.normalized));
        NormalizedString::of_fields(original, normalized, alignments, self.original_shift as usize)
    }

    pub fn alignments(&self) -> impl Iterator<Item = (Offset, Offset)> + '_ {
        self.starts.iter().copied().zip(self.ends.iter().copied())
    }
}

impl fmt::Display for Note {
    fn fmt(&self, f: &mut fmt::Formatter<'_>) -> fmt::Result {
        write!(
            f,
            "original {}, normalized {}, starts {}, ends {}, shift {}",
            hex(&self.original),
            hex(&self.normalized),
            numbers(&self.starts),
            numbers(&self.ends),
            self.original_shift
        )
    }
}

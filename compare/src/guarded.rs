//! Buffers that are passed to a call. Around the passed part, and in it at entry, is a known pattern, so that every
//! write outside the result is seen.

use crate::library::Publishing;
use crate::note::{Note, Offset};
use std::sync::OnceLock;

const GUARD: usize = 128;

/// So many elements of the pattern are made once for all buffers of a kind.
const KEPT: usize = 1 << 17;

/// What a buffer holds.
pub trait Number: Copy + PartialEq + 'static {
    fn lowest_bits(of: u64) -> Self;

    /// The front of the pattern.
    fn kept() -> &'static [Self];
}

macro_rules! numbers {
    ($($number:ty)*) => {
        $(impl Number for $number {
            fn lowest_bits(of: u64) -> Self {
                of as Self
            }

            fn kept() -> &'static [Self] {
                static FRONT: OnceLock<Vec<$number>> = OnceLock::new();
                FRONT.get_or_init(|| (0..KEPT).map(pattern).collect())
            }
        })*
    };
}

numbers!(u8 u16 u32);

pub struct Guarded<T> {
    memory: Vec<T>,
    len: usize,
}

impl<T: Number> Guarded<T> {
    pub fn new(len: usize) -> Self {
        let all = len + 2 * GUARD;
        let kept = &T::kept()[..all.min(KEPT)];
        Guarded { memory: kept.iter().copied().chain((kept.len()..all).map(pattern)).collect(), len }
    }

    pub fn part(&mut self) -> &mut [T] {
        &mut self.memory[GUARD..GUARD + self.len]
    }

    /// Whether the passed part begins with `result` and all the rest keeps its entry contents.
    pub fn holds(&self, result: &[T]) -> bool {
        let end = GUARD + result.len();
        self.memory[GUARD..].starts_with(result) && self.untouched(0, GUARD) && self.untouched(end, self.memory.len())
    }

    /// Whether all around the passed part keeps its entry contents.
    pub fn guards_hold(&self) -> bool {
        self.untouched(0, GUARD) && self.untouched(GUARD + self.len, self.memory.len())
    }

    fn untouched(&self, from: usize, to: usize) -> bool {
        let kept = to.min(KEPT).max(from);
        let front = T::kept().get(from..kept).unwrap_or_default();
        self.memory[from..from + front.len()] == *front
            && (from + front.len()..to).all(|i| self.memory[i] == pattern(i))
    }
}

/// The three buffers for a note that a call publishes, or works on.
pub struct Output {
    text: Guarded<u8>,
    starts: Guarded<Offset>,
    ends: Guarded<Offset>,
}

impl Output {
    pub fn new([text, starts, ends]: [usize; 3]) -> Self {
        Output { text: Guarded::new(text), starts: Guarded::new(starts), ends: Guarded::new(ends) }
    }

    pub fn passed(&mut self) -> Publishing<'_> {
        Publishing { text: self.text.part(), starts: self.starts.part(), ends: self.ends.part() }
    }

    /// Which of them begin with what a note has, or with nothing, and are untouched after it.
    pub fn hold(&self, note: Option<&Note>) -> [bool; 3] {
        let (text, starts, ends): (&[u8], &[Offset], &[Offset]) = match note {
            Some(note) => (&note.normalized, &note.starts, &note.ends),
            None => (&[], &[], &[]),
        };
        [self.text.holds(text), self.starts.holds(starts), self.ends.holds(ends)]
    }

    /// Which of them have untouched guards.
    pub fn guards_hold(&self) -> [bool; 3] {
        [self.text.guards_hold(), self.starts.guards_hold(), self.ends.guards_hold()]
    }
}

/// Differs from place to place, so that a copy of the pattern elsewhere is seen too.
fn pattern<T: Number>(i: usize) -> T {
    T::lowest_bits((i as u64 + 1).wrapping_mul(0x9E37_79B9_7F4A_7C15) >> 40)
}

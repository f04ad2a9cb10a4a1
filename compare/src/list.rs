//! The lists of answers that crates/replay replays on the exported calls, a file for each call: how they are laid out.
//!
//! - field: its length (4 bytes, little-endian), its bytes
//! - the file `calls`: fields, the names of the calls in the order of `stored_answers::calls::CALLS`
//! - file: fields, each a case, packed
//! - packed case: fields, each a part: times (4 bytes), a unit, which is there that many times
//! - case: fields; what the call is passed, in the order of its arguments, a buffer to be written with what it holds at
//!   entry; then the answer's numbers, and each of those buffers, whole, with what it holds then
//! - scratch: the number of elements of each buffer, before the buffers to be written; it holds zeros at entry, and what
//!   it holds then is left out
//! - number: 4 bytes
//! - text: as it is
//! - column, numbers: the differences of its elements, each a number, the first from 0; modulo 2 to its bits

use crate::note::{position, Note, Offset};
use std::collections::HashSet;
use std::fmt;

/// The largest unit that is looked for, and the fewest bytes that a part which repeats has to save.
const UNIT: usize = 64;
const FEWEST: usize = 32;

/// The most bytes of a file and of a case, unpacked, for which crates/replay has room.
const FILE: usize = 65_535;
const CASE: usize = 3_145_728;

/// The calls by their names, which are those of their files too.
macro_rules! replayed {
    ($($call:ident $name:literal,)*) => {
        #[derive(Clone, Copy, PartialEq, Eq)]
        pub enum Replayed {
            $($call,)*
        }

        impl Replayed {
            pub const ALL: &[Replayed] = &[$(Replayed::$call,)*];

            pub fn name(self) -> &'static str {
                match self {
                    $(Replayed::$call => $name,)*
                }
            }
        }
    };
}

// In the order of the file `calls`, which is that of `stored_answers::calls::CALLS`.
replayed! {
    WellFormed "well_formed",
    LetterCount "letter_count",
    CharOffsets "char_offsets",
    CharOffsetsAll "char_offsets_all",
    FromText "from_text",
    CheckNote "check_note",
    ConvertOffsets "convert_offsets",
    GetRange "get_range",
    GetRangeOriginal "get_range_original",
    ConvertAll "convert_all",
    Replace "replace",
    PublishedAlike "published_alike",
    Part "part",
    FindMatches "find_matches",
    Redact "redact",
    Slice "slice",
    Split "split",
    GetSplits "get_splits",
    Pieces "pieces",
    TransformRange "transform_range",
    Transform "transform",
    Map "map",
    Filter "filter",
    Append "append",
    Prepend "prepend",
    Clear "clear",
    Lowercase "lowercase",
    ReplaceByEdits "replace_by_edits",
}

/// The answers of one call.
pub struct Answers {
    pub call: Replayed,
    cases: Vec<Vec<u8>>,
}

impl Answers {
    pub fn new(call: Replayed) -> Self {
        Answers { call, cases: vec![] }
    }

    /// Begins a case, whose fields follow.
    pub fn answer(&mut self) -> &mut Self {
        self.cases.push(vec![]);
        self
    }

    pub fn text(&mut self, text: &[u8]) -> &mut Self {
        self.cases.last_mut().expect("a case was begun").extend(field(text));
        self
    }

    pub fn number(&mut self, number: u32) -> &mut Self {
        self.text(&number.to_le_bytes())
    }

    pub fn numbers(&mut self, numbers: &[u32]) -> &mut Self {
        self.text(&differences(numbers).flat_map(u32::to_le_bytes).collect::<Vec<u8>>())
    }

    pub fn column(&mut self, column: &[Offset]) -> &mut Self {
        let wide: Vec<u32> = column.iter().map(|&offset| position(offset) as u32).collect();
        let narrow = differences(&wide).map(|difference| position(difference as Offset) as u32);
        self.text(&narrow.flat_map(u32::to_le_bytes).collect::<Vec<u8>>())
    }

    /// Transcript, cleaned text, starts, ends, shift.
    pub fn note(&mut self, note: &Note) -> &mut Self {
        self.text(&note.original).text(&note.normalized).column(&note.starts).column(&note.ends);
        self.number(note.original_shift)
    }

    /// Buffers of this length at entry, and with a result in the place of their first elements. What they hold at
    /// entry differs from place to place, so that a copy of it elsewhere is seen too.
    pub fn passed_text(&mut self, room: usize) -> &mut Self {
        self.left_text(room, &[])
    }

    pub fn left_text(&mut self, room: usize, result: &[u8]) -> &mut Self {
        self.text(&left(room, result, |i| (i % 13 * 17 + 40) as u8))
    }

    pub fn passed_column(&mut self, room: usize) -> &mut Self {
        self.left_column(room, &[])
    }

    pub fn left_column(&mut self, room: usize, result: &[Offset]) -> &mut Self {
        self.column(&left(room, result, |i| (i * 40_503 + 26_267) as Offset))
    }

    pub fn passed_numbers(&mut self, room: usize) -> &mut Self {
        self.left_numbers(room, &[])
    }

    pub fn left_numbers(&mut self, room: usize, result: &[u32]) -> &mut Self {
        self.numbers(&left(room, result, |i| (i * 2_654_435_761 + 1_721_460_133) as u32))
    }

    /// The file, each case once.
    pub fn file(&self) -> Vec<u8> {
        let mut known = HashSet::new();
        let distinct = self.cases.iter().filter(|case| known.insert(*case));
        let file: Vec<u8> = distinct.flat_map(|case| field(&packed(case))).collect();
        assert!(file.len() <= FILE, "{} has {} bytes", self.call.name(), file.len());
        file
    }
}

impl fmt::Display for Answers {
    fn fmt(&self, f: &mut fmt::Formatter<'_>) -> fmt::Result {
        let known: HashSet<&Vec<u8>> = self.cases.iter().collect();
        write!(f, "{}: {} answers, {} bytes", self.call.name(), known.len(), self.file().len())
    }
}

pub fn field(bytes: &[u8]) -> Vec<u8> {
    let length = u32::try_from(bytes.len()).expect("a length of four bytes");
    [&length.to_le_bytes(), bytes].concat()
}

fn differences(numbers: &[u32]) -> impl Iterator<Item = u32> + '_ {
    let before = [0].into_iter().chain(numbers.iter().copied());
    numbers.iter().zip(before).map(|(number, before)| number.wrapping_sub(before))
}

fn left<T: Copy>(room: usize, result: &[T], entry: impl Fn(usize) -> T) -> Vec<T> {
    result.iter().copied().chain((result.len()..room).map(entry)).collect()
}

fn packed(case: &[u8]) -> Vec<u8> {
    assert!(case.len() <= CASE, "a case of {} bytes", case.len());
    let mut parts = vec![];
    let (mut begin, mut at) = (0, 0);
    while at < case.len() {
        match repeating(&case[at..]) {
            Some((unit, times)) => {
                parts.extend(once(&case[begin..at]));
                parts.extend(part(unit, times));
                at += unit.len() * times;
                begin = at;
            }
            None => at += 1,
        }
    }
    parts.extend(once(&case[begin..]));
    parts
}

fn part(unit: &[u8], times: usize) -> Vec<u8> {
    field(&[&(times as u32).to_le_bytes(), unit].concat())
}

fn once(bytes: &[u8]) -> Vec<u8> {
    if bytes.is_empty() {
        return vec![];
    }
    part(bytes, 1)
}

/// The unit that saves the most at the beginning, if that is enough, and how many times it is there.
fn repeating(bytes: &[u8]) -> Option<(&[u8], usize)> {
    let candidates = (1..=UNIT.min(bytes.len())).map(|len| {
        let more = (len..bytes.len()).take_while(|&i| bytes[i] == bytes[i - len]).count();
        (&bytes[..len], 1 + more / len)
    });
    let saved = |&(unit, times): &(&[u8], usize)| unit.len() * (times - 1);
    candidates.rev().max_by_key(saved).filter(|part| saved(part) >= FEWEST)
}

//! The eight calls: what each is passed beside a note, what the Rust original makes of it, and what ours answers. The
//! refusals are judged a second time, from docs/RULES.md.

use super::lowercase;
use crate::guarded::Output;
use crate::library::{self, Cleared, Publishing, Written};
use crate::note::Note;
use crate::refusals::{
    BAD_SCRIPT, COUNT_MISMATCH, EXHAUSTED, ILL_FORMED, LENGTH_MISMATCH, MISALIGNED, NOT_BOUNDARY, NO_ROOM, TOO_LONG,
};
use crate::replace::Rooms;
use crate::tally::{self, Tally};
use crate::texts::LIMIT;
use std::cell::Cell;
use std::ops;
use std::str::from_utf8;
use tokenizers::normalizer::Range;
use tokenizers::NormalizedString;

/// A character and its change, as the Rust takes them.
pub type Change = (char, isize);

/// The most characters that one command removes: its operand has two bytes.
pub const MOST_REMOVED: isize = u16::MAX as isize;

/// A call with what it is passed beside a note and room: scripts with the initial offset, code points, flags, strings.
#[derive(Clone, Debug)]
pub enum Edit {
    TransformRange((bool, u32, u32), Vec<u8>, u32),
    Transform(Vec<u8>, u32),
    Map(Vec<u32>),
    Filter(Vec<u8>),
    Append(Vec<u8>),
    Prepend(Vec<u8>),
    Clear,
    Lowercase,
}

use Edit::{Append, Clear, Filter, Lowercase, Map, Prepend, Transform, TransformRange};

/// A note that an edit left, and how long its cleaned text was before, which `clear` alone answers.
pub struct Made {
    pub note: Note,
    pub before: usize,
}

/// What an edit does to a range of the cleaned text: characters and changes, and how many characters it skips.
pub struct Course {
    pub cleaned: ops::Range<usize>,
    pub changes: Vec<Change>,
    pub offset: usize,
}

impl Edit {
    /// What the Rust original makes, or the refusal that docs/RULES.md gives in any room.
    pub fn expected(&self, note: &Note) -> Result<Made, u32> {
        let refusal = note.refusal();
        if [TOO_LONG, LENGTH_MISMATCH, ILL_FORMED].contains(&refusal) {
            return Err(refusal);
        }
        if let Append(string) | Prepend(string) = self {
            from_utf8(string).map_err(|_| ILL_FORMED)?;
        }
        if refusal == MISALIGNED {
            return Err(MISALIGNED);
        }
        self.made(note)
    }

    /// The same of a sound note and a well-formed string.
    pub fn made(&self, note: &Note) -> Result<Made, u32> {
        let mut theirs = note.of_the_original();
        let before = self.edit(&mut theirs)?;
        Ok(Made { note: Note::from(&theirs), before })
    }

    /// Edits a note of the Rust, and answers what `clear` does; or the refusal.
    pub fn edit(&self, theirs: &mut NormalizedString) -> Result<usize, u32> {
        if let Some(course) = self.course(theirs)? {
            let part = theirs.get().get(course.cleaned).ok_or(NOT_BOUNDARY)?;
            if starves(part.chars().count(), &course.changes, course.offset) {
                return Err(EXHAUSTED);
            }
        }
        let before = self.run(theirs);
        if theirs.len() > LIMIT {
            return Err(NO_ROOM);
        }
        Ok(before)
    }

    /// The Rust's call; for letters that only its `lowercase` changes, its `transform`.
    fn run(&self, note: &mut NormalizedString) -> usize {
        let given = |index: &Cell<usize>| index.replace(index.get() + 1);
        let index = Cell::new(0);
        match self {
            TransformRange(range, script, offset) => {
                note.transform_range(named(*range), changes(script).expect("a judged script"), *offset as usize);
            }
            Transform(script, offset) => {
                note.transform(changes(script).expect("a judged script"), *offset as usize);
            }
            Map(codes) => _ = note.map(|_| char::from_u32(codes[given(&index)]).expect("a judged code point")),
            Filter(flags) => _ = note.filter(|_| flags[given(&index)] != 0),
            Append(string) => _ = note.append(from_utf8(string).expect("a judged string")),
            Prepend(string) => _ = note.prepend(from_utf8(string).expect("a judged string")),
            Clear => return note.clear(),
            Lowercase if note.get().contains(lowercase::only_the_rust_changes) => {
                note.transform(lowercase::changes(note.get()), 0);
            }
            Lowercase => _ = note.lowercase(),
        }
        0
    }

    /// Judges 6 and 11, and says what is done to which range; nothing where the range has no answer, and nothing of a
    /// string, which is never refused here.
    pub fn course(&self, note: &NormalizedString) -> Result<Option<Course>, u32> {
        let whole = Range::Original(0..note.len_original());
        let characters = || note.get().chars().count();
        let (range, changes, offset) = match self {
            TransformRange(range, script, offset) => (named(*range), changes(script).ok_or(BAD_SCRIPT)?, *offset),
            Transform(script, offset) => (whole, changes(script).ok_or(BAD_SCRIPT)?, *offset),
            Map(codes) => {
                let new: Option<Vec<char>> = codes.iter().map(|&code| char::from_u32(code)).collect();
                let new = new.ok_or(BAD_SCRIPT)?;
                if new.len() != characters() {
                    return Err(COUNT_MISMATCH);
                }
                (whole, new.into_iter().map(|character| (character, 0)).collect(), 0)
            }
            Filter(flags) => {
                if flags.len() != characters() {
                    return Err(COUNT_MISMATCH);
                }
                let (changes, offset) = kept(note.get(), flags);
                (whole, changes, offset)
            }
            Clear => (whole, vec![], 0),
            Lowercase => (whole, lowercase::changes(note.get()), 0),
            Append(_) | Prepend(_) => return Ok(None),
        };
        let cleaned = match range {
            Range::Normalized(cleaned) => Some(cleaned),
            Range::Original(_) => note.convert_offsets(range),
        };
        Ok(cleaned.map(|cleaned| Course { cleaned, changes, offset: offset as usize }))
    }

    /// The room that include/zulmyren.h says is always enough.
    fn enough(&self, note: &Note) -> usize {
        let len = note.normalized.len();
        match self {
            TransformRange(_, script, _) | Transform(script, _) => len + 4 * (script.len() / 5),
            Map(codes) => 4 * codes.len(),
            Filter(_) if note.original.is_empty() || note.starts.first() == note.ends.first() => 2 * len,
            Filter(_) | Clear => len,
            Lowercase => len + len / 2,
            Append(string) => len + string.len(),
            Prepend(string) => {
                if len == 0 {
                    0
                } else {
                    len + string.len()
                }
            }
        }
    }

    /// Our call's answer in so much room, and what it left.
    pub fn answer(&self, note: &Note, room: usize) -> (Cleared, Note) {
        let (mut text, mut starts, mut ends) = (vec![0; room], vec![0; room], vec![0; room]);
        let answer = self.ours(note, Publishing { text: &mut text, starts: &mut starts, ends: &mut ends });
        text.truncate(answer.len);
        starts.truncate(answer.len);
        ends.truncate(answer.len);
        (answer, Note { normalized: text, starts, ends, ..note.clone() })
    }

    fn ours(&self, note: &Note, out: Publishing) -> Cleared {
        let Written { refusal, len } = match self {
            TransformRange(range, script, offset) => library::transform_range(note, *range, script, *offset, out),
            Transform(script, offset) => library::transform(note, script, *offset, out),
            Map(codes) => library::map(note, codes, out),
            Filter(flags) => library::filter(note, flags, out),
            Append(string) => library::append(note, string, out),
            Prepend(string) => library::prepend(note, string, out),
            Lowercase => library::lowercase(note, out),
            Clear => return library::clear(note, out),
        };
        Cleared { refusal, before_len: 0, len }
    }
}

/// The range that a flag and two numbers name.
fn named((of_original, start, end): (bool, u32, u32)) -> Range<ops::Range<usize>> {
    let range = start as usize..end as usize;
    if of_original {
        Range::Original(range)
    } else {
        Range::Normalized(range)
    }
}

/// The script's bytes, written from docs/RULES.md.
pub fn bytes(changes: &[Change]) -> Vec<u8> {
    let mut script = vec![];
    for &(character, change) in changes {
        script.push(match change {
            0 => 1,
            1 => 2,
            _ => 3,
        });
        script.extend((character as u32).to_le_bytes());
        if change < 0 {
            script.extend((-change as u16).to_le_bytes());
        }
    }
    script
}

/// The changes of a script's bytes, where it is broken nowhere.
pub fn changes(mut script: &[u8]) -> Option<Vec<Change>> {
    let mut changes = vec![];
    while let Some((&number, operands)) = script.split_first() {
        let (code, after) = operands.split_first_chunk()?;
        let character = char::from_u32(u32::from_le_bytes(*code))?;
        let (change, after) = match number {
            1 => (0, after),
            2 => (1, after),
            3 => {
                let (count, after) = after.split_first_chunk()?;
                (-isize::try_from(u16::from_le_bytes(*count)).expect("16 bits"), after)
            }
            _ => return None,
        };
        if number == 3 && change == 0 {
            return None;
        }
        changes.push((character, change));
        script = after;
    }
    Some(changes)
}

/// What is done to keep characters: each replaces itself and removes those that are dropped after it.
fn kept(text: &str, flags: &[u8]) -> (Vec<Change>, u32) {
    let mut changes: Vec<Change> = vec![];
    let mut ahead = 0;
    for (character, &flag) in text.chars().zip(flags) {
        match changes.last_mut() {
            _ if flag != 0 => changes.push((character, 0)),
            Some((_, change)) => *change -= 1,
            None => ahead += 1,
        }
    }
    let offset = if changes.is_empty() { 0 } else { ahead };
    (changes, offset)
}

/// Whether a replacing command finds no character left among so many.
pub fn starves(characters: usize, changes: &[Change], offset: usize) -> bool {
    let mut used = offset.min(characters);
    for &(_, change) in changes {
        if change > 0 {
            continue;
        }
        if used == characters {
            return true;
        }
        used = characters.min(used + 1 + -change as usize);
    }
    false
}

/// A call in rooms that belong to the result's length.
pub fn check(tally: &mut Tally, note: &Note, edit: &Edit, rooms: impl FnOnce(usize) -> Rooms) {
    check_beside(tally, note, edit, edit.expected(note), rooms, || "whole".into());
}

/// The same of a sound note.
pub fn check_sound(tally: &mut Tally, note: &Note, edit: &Edit, rooms: impl FnOnce(usize) -> Rooms) {
    check_beside(tally, note, edit, edit.made(note), rooms, || "whole".into());
}

pub fn check_beside(
    tally: &mut Tally,
    note: &Note,
    edit: &Edit,
    expected: Result<Made, u32>,
    rooms: impl FnOnce(usize) -> Rooms,
    made: impl Fn() -> String,
) {
    let len = match &expected {
        Ok(left) => left.note.normalized.len(),
        Err(NO_ROOM) => LIMIT + 9,
        Err(_) => note.normalized.len().min(300) + 3,
    };
    let nothing = Note::default();
    for room in rooms(len) {
        let mut out = Output::new(room);
        let ours = edit.ours(note, out.passed());
        let (refusal, before, left) = match &expected {
            Err(refusal) => (*refusal, 0, &nothing),
            Ok(_) if room.iter().any(|&room| room < len) => (NO_ROOM, 0, &nothing),
            Ok(left) => (0, left.before, &left.note),
        };
        let theirs = Cleared { refusal, before_len: before, len: left.normalized.len() };
        let held = out.hold(Some(left));
        let unsound = refusal == 0 && left.refusal() != 0;
        let longer = left.normalized.len() > edit.enough(note);
        tally.case(tally::refusal(ours.refusal), ours != theirs || held != [true; 3] || unsound || longer, || {
            let made = made();
            format!(
                "ours {ours:?}, theirs {theirs:?}, text, starts, ends equal {held:?}, theirs unsound {unsound}, \
                 longer than is said {longer}, in rooms {room:?}, {made}: {edit:?} on {note}"
            )
        });
    }
}

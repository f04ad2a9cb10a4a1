//! Every refusal of every edit, alone and beside others, and that nothing is written then.

use super::edit::{bytes, check, check_beside, Change, Edit};
use super::long::EVERY;
use crate::characters::sequences;
use crate::every;
use crate::library::{self, Cleared, Written};
use crate::note::{Note, Offset};
use crate::notes;
use crate::random::Random;
use crate::replace::{ample_or_none, Rooms};
use crate::samples::{self, ADDRESSES};
use crate::tally::{self, Tally};
use crate::texts::{self, LIMIT, UNITS};
use tokenizers::NormalizedString;
use Edit::{Append, Clear, Filter, Lowercase, Map, Prepend, Transform, TransformRange};

pub fn compare(tally: &mut Tally) {
    every_set_of_faults(tally);
    faults_and_nothing_left(tally);
    nothing_left(tally);
    damaged_notes(tally);
    damaged_scripts(tally);
    every_edge_of_code_points(tally);
    other_counts(tally);
    any_ends(tally);
    ill_formed_strings(tally);
    nothing_anywhere(tally);
}

fn moved(text: &str) -> Note {
    let mut note = NormalizedString::from(text);
    note.prepend("");
    Note::from(&note)
}

/// Each buffer just large enough or one too short.
fn short_in_each(len: usize) -> Rooms {
    every::list(&[len, len.saturating_sub(1)], 3).map(|r| [r[0], r[1], r[2]]).collect()
}

/// A surrogate where a code point belongs.
const SURROGATE: u32 = 0xD800;

fn broken() -> Vec<u8> {
    [&[1][..], &SURROGATE.to_le_bytes()].concat()
}

/// Each call for a text of three characters in four bytes, whole and with every set of its own faults.
fn with_faults() -> Vec<Edit> {
    let replacing = |times: usize| bytes(&vec![('é', 0); times]);
    let scripts = [replacing(3), replacing(4), [replacing(3), broken()].concat(), [replacing(4), vec![4]].concat()];
    let mut edits = vec![Clear, Lowercase];
    for script in scripts {
        for range in [(0, 4), (0, 2), (3, 1), (2, 9)] {
            for of_original in [false, true] {
                edits.push(TransformRange((of_original, range.0, range.1), script.clone(), 0));
            }
        }
        edits.push(Transform(script.clone(), 0));
        edits.push(Transform(script, 1));
    }
    for string in [&b"xyz"[..], b"\xC3", b""] {
        edits.extend([Append(string.into()), Prepend(string.into())]);
    }
    for len in [2, 3, 4] {
        edits.extend([Filter(vec![1; len]), Filter(vec![0; len]), Map(vec!['日'.into(); len])]);
        let mut codes = vec!['x'.into(); len];
        codes[len - 1] = SURROGATE;
        edits.push(Map(codes));
    }
    edits
}

fn every_set_of_faults(tally: &mut Tally) {
    tally.family("every set of faults out of nine of the note, of the call's own, and of each short room");
    for (set, note) in notes::with_faults() {
        for edit in with_faults() {
            check_beside(tally, &note, &edit, edit.expected(&note), short_in_each, || format!("faults {set:09b}"));
        }
    }
}

/// The faults of a note come before 7, also a 4 that is at its end, and 7 comes before a short room.
fn faults_and_nothing_left(tally: &mut Tally) {
    tally.family("the same faults of two notes whose first character is before the whole transcript's range");
    let whole = moved("İAé");
    let mut back = whole.clone();
    back.ends[4] = 0;
    for (set, note) in [whole, back].into_iter().flat_map(notes::every_faulty) {
        for edit in [Lowercase, Map(vec!['日'.into(); 3]), Filter(vec![1; 3]), Clear] {
            check_beside(tally, &note, &edit, edit.expected(&note), ample_or_none, || format!("faults {set:09b}"));
        }
    }
}

/// The first character is before the whole transcript's range.
fn nothing_left(tally: &mut Tally) {
    tally.family("each call's own faults on notes whose first characters are before the whole transcript's range");
    let mut twice = moved("aéb").of_the_original();
    twice.prepend("x").prepend("");
    for note in [moved("aéb"), moved("éab"), moved("漢a"), Note::from(&twice), moved("a"), moved("İA")] {
        for edit in with_faults() {
            check(tally, &note, &edit, short_in_each);
        }
        let characters = std::str::from_utf8(&note.normalized).expect("a sound note").chars().count();
        for flags in every::list(&[0, 1], characters) {
            check(tally, &note, &Filter(flags), short_in_each);
        }
        check(tally, &note, &Map(vec!['x'.into(); characters]), short_in_each);
    }
}

fn damaged_notes(tally: &mut Tally) {
    tally.family("notes of any make, with every damage, beside each call, whole and with a fault of its own");
    let mut random = Random::new(91);
    for turn in 0..140 {
        let len = 1 + random.below([10, 40, 300][turn % 3]);
        let note = samples::any(len, &mut random);
        let edits: Vec<Edit> = EVERY.iter().map(|any| any(&note, &mut random)).collect();
        let faulty = [
            Transform(broken(), 0),
            TransformRange((false, 1, 0), vec![], 0),
            Map(vec![]),
            Filter(vec![1; 500]),
            Append(b"\xC3".into()),
            Prepend(b"x\x80".into()),
        ];
        let note = Note::from(&note);
        let mut beside = |note: &Note, made: &str| {
            for edit in edits.iter().chain(&faulty) {
                check_beside(tally, note, edit, edit.expected(note), ample_or_none, || made.into());
            }
        };
        for (name, damaged) in samples::damaged(&note) {
            beside(&damaged, name);
        }
        let offsets: Vec<usize> = match note.normalized.len() {
            0 => vec![],
            bytes @ 1..=4 => (0..bytes).collect(),
            bytes => vec![0, random.below(bytes), bytes - 1],
        };
        for (name, damaged) in offsets.into_iter().flat_map(|offset| samples::damaged_at(&note, offset)) {
            beside(&damaged, name);
        }
    }
}

/// A script with every byte changed to every other, cut off, added, left out.
fn damaged(script: &[u8]) -> Vec<Vec<u8>> {
    let mut scripts = vec![];
    for i in 0..script.len() {
        for value in 0..=255 {
            let mut changed = script.to_vec();
            changed[i] = value;
            scripts.push(changed);
        }
        scripts.push(script[..i].to_vec());
        scripts.push([&script[..i], &script[i + 1..]].concat());
    }
    for i in 0..=script.len() {
        for value in (0..=8).chain([0x41, 0x7F, 0x80, 0xD8, 0xFF]) {
            scripts.push([&script[..i], &[value], &script[i..]].concat());
        }
    }
    scripts
}

fn damaged_scripts(tally: &mut Tally) {
    tally.family("every byte of a script changed to every other, cut off, added, left out; every text of 2 of 8 bytes");
    let scripts: [&[Change]; 6] = [
        &[('x', 0)],
        &[('x', 1)],
        &[('x', -1)],
        &[('é', -2), ('x', 1)],
        &[('漢', 0), ('😀', -1), ('x', 1)],
        &[('x', 1), ('y', 0), ('z', 0), ('\u{10FFFF}', -1), ('\u{D7FF}', 1)],
    ];
    let notes = [Note::from(&NormalizedString::from("aéb漢c")), moved("éab")];
    for note in &notes {
        for script in scripts.iter().flat_map(|script| damaged(&bytes(script))) {
            check(tally, note, &Transform(script.clone(), 0), ample_or_none);
            check(tally, note, &TransformRange((false, 1, 1), script, 0), ample_or_none);
        }
        for script in every::texts(&[0, 1, 2, 3, 4, 11, 128, 255], 2) {
            check(tally, note, &Transform(script, 0), ample_or_none);
        }
    }
    tally.family("long scripts of 5 or 7 bytes a command with one byte changed, or cut anywhere");
    let mut random = Random::new(92);
    let note = Note::from(&NormalizedString::from("a".repeat(900)));
    for turn in 0..4_000 {
        let command = |_| ('é', [0, 0, 1, -1][random.below(4)]);
        let changes: Vec<Change> = (0..1 + turn % 300).map(command).collect();
        let mut script = bytes(&changes);
        let at = random.below(script.len());
        match turn % 3 {
            0 => script.truncate(at),
            1 => script[at] = random.byte(),
            _ => script[at] ^= 1 << random.below(8),
        }
        check(tally, &note, &Transform(script, 0), ample_or_none);
    }
}

const CODES: [u32; 26] = [
    0,
    0x7F,
    0x80,
    0x7FF,
    0x800,
    0xFFF,
    0x1000,
    0xD7FF,
    0xD800,
    0xDBFF,
    0xDC00,
    0xDFFF,
    0xE000,
    0xFFFE,
    0xFFFF,
    0x1_0000,
    0x3_FFFF,
    0x4_0000,
    0x10_0000,
    0x10_FFFF,
    0x11_0000,
    0x1F_FFFF,
    0x20_0000,
    0x100_0041,
    0x8000_0041,
    u32::MAX,
];

fn every_edge_of_code_points(tally: &mut Tally) {
    tally.family("code points at each edge, by each command, and by map at every index to 140");
    let note = Note::from(&NormalizedString::from("aéb"));
    for code in CODES {
        for command in 0..=4 {
            for after in [&[][..], &[1, 0], &[0, 0], &[0, 1]] {
                let script = [&[command], &code.to_le_bytes()[..], after].concat();
                check(tally, &note, &Transform(script, 0), ample_or_none);
            }
        }
        check(tally, &note, &Map(vec![code; 3]), ample_or_none);
    }
    for unit in UNITS {
        let text = texts::repeated(unit, 140);
        let note = Note::from(&NormalizedString::from(text.as_str()));
        let codes: Vec<u32> = text.chars().map(u32::from).collect();
        for i in 0..codes.len() {
            for code in CODES {
                let mut codes = codes.clone();
                codes[i] = code;
                check(tally, &note, &Map(codes), ample_or_none);
            }
        }
    }
}

fn other_counts(tally: &mut Tally) {
    tally.family(
        "flags and code points one more or fewer than characters, none, 65536 more, on texts of every length to 140",
    );
    for unit in UNITS {
        for len in (0..=140).chain([5_000]) {
            let text = texts::repeated(unit, len);
            let note = Note::from(&NormalizedString::from(text.as_str()));
            let count = text.chars().count();
            for count in [0, count.saturating_sub(1), count, count + 1, len, 2 * count, count + (1 << 16)] {
                if count > 300 && len % 35 > 0 {
                    continue;
                }
                check(tally, &note, &Filter(vec![1; count]), ample_or_none);
                check(tally, &note, &Map(vec!['x'.into(); count]), ample_or_none);
            }
        }
    }
}

fn any_ends(tally: &mut Tally) {
    tally.family("ranges whose ends are any number of 32 bits, at, before and after every boundary");
    let mut random = Random::new(93);
    for turn in 0..3_000 {
        let len = random.below([9, 70, 300][turn % 3]);
        let note = Note::from(&samples::any(len, &mut random));
        let end = |random: &mut Random| match random.below(12) {
            0 => u32::MAX,
            1 => u32::MAX - 1,
            2 => (LIMIT + random.below(3)) as u32,
            3 => note.normalized.len() as u32,
            4 => note.original.len() as u32,
            5 => note.original.len() as u32 + (1 << 16),
            _ => random.below(len + 3) as u32,
        };
        for script in [&[][..], &[('x', 1)], &[('x', 0)], &[('x', -1), ('é', 1)]] {
            for of_original in [false, true] {
                let range = (of_original, end(&mut random), end(&mut random));
                check(tally, &note, &TransformRange(range, bytes(script), turn as u32 % 4), ample_or_none);
            }
        }
    }
}

fn ill_formed_strings(tally: &mut Tally) {
    tally.family("strings with a character, or a wrong or cut one, anywhere, beside notes that are whole or not");
    // A sound note, one with a start too many, one whose alignments are not sound, and the empty one.
    let notes = [0, 1 << 3, 1 << 7].map(notes::with).into_iter().chain([Note::default()]);
    for note in notes {
        for sequence in sequences() {
            for (before, after) in [(0, 0), (1, 1), (63, 70), (126, 0), (128, 131)] {
                let string = [&b"a".repeat(before), &sequence[..], &b"a".repeat(after)].concat();
                check(tally, &note, &Append(string.clone()), ample_or_none);
                check(tally, &note, &Prepend(string), ample_or_none);
            }
        }
    }
}

fn nothing_anywhere(tally: &mut Tally) {
    tally.family("nothing passed, at any pointer");
    for address in ADDRESSES {
        let (text, column, codes) = (address as *const u8, address as *const Offset, address as *const u32);
        let (out, written) = (address as *mut u8, address as *mut Offset);
        macro_rules! on_nothing {
            ($call:ident $(, $passed:expr)*) => {
                library::$call(text, 0, text, 0, column, 0, column, 0, 0 $(, $passed)*, out, 0, written, 0, written, 0)
            };
        }
        let ours = unsafe {
            [
                on_nothing!(zulmyren_transform_range, false, 0, 0, text, 0, 0),
                on_nothing!(zulmyren_transform_range, true, 0, 0, text, 0, 9),
                on_nothing!(zulmyren_transform, text, 0, 0),
                on_nothing!(zulmyren_map, codes, 0),
                on_nothing!(zulmyren_filter, text, 0),
                on_nothing!(zulmyren_append, text, 0),
                on_nothing!(zulmyren_prepend, text, 0),
                on_nothing!(zulmyren_lowercase),
            ]
        };
        let accepted = Written { refusal: 0, len: 0 };
        for ours in ours {
            tally.case(tally::refusal(ours.refusal), ours != accepted, || format!("ours {ours:?} at {address:#x}"));
        }
        let ours = unsafe { on_nothing!(zulmyren_clear) };
        let accepted = Cleared { refusal: 0, before_len: 0, len: 0 };
        tally.case(tally::refusal(ours.refusal), ours != accepted, || format!("ours {ours:?} at {address:#x}"));
    }
}

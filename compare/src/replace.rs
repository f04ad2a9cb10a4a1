//! Replacing beside `NormalizedString::replace`, on lists from outside, and refusals beside a second judge. The families
//! that are passed a call are those of replacing by edits too.

use crate::characters::sequences;
use crate::every;
use crate::guarded::Output;
use crate::library::{self, Written};
use crate::note::{Note, Offset};
use crate::notes;
use crate::places::{self, Given, Place};
use crate::random::Random;
use crate::refusals::{BAD_MATCHES, ILL_FORMED, LENGTH_MISMATCH, MISALIGNED, NO_ROOM, TOO_LONG};
use crate::samples::{self, sound_notes, ADDRESSES, FILLERS};
use crate::tally::{self, hex, Report, Tally};
use crate::texts::{self, LIMIT};
use std::str::from_utf8;
use tokenizers::pattern::Pattern;
use tokenizers::NormalizedString;

pub fn compare(report: &mut Report) {
    report.call("zulmyren_replace", "NormalizedString::replace and a second judge", |tally| {
        worked_notes(tally, replace);
        every_list(tally);
        every_room(tally);
        any_lists(tally, replace);
        tally.family("notes of any make up to the limit, any list to one place more than the limit, in 9 rooms");
        long_notes(tally, replace, 240, [100, 3_000, LIMIT + 1]);
        one_filler_around_the_limit(tally, replace);
        many_fillers_around_the_limit(tally);
        fillers_and_lists_past_the_limit(tally, replace);
        damaged_lists(tally, replace);
        ill_formed_fillers(tally, replace);
        every_set_of_faults(tally, replace);
        damaged_notes(tally, replace);
        nothing_anywhere(tally, |text, column, out, written| unsafe {
            library::zulmyren_replace(
                text, 0, text, 0, column, 0, column, 0, 0, text, 0, text, 0, out, 0, written, 0, written, 0,
            )
        });
    });
}

/// A note, a list and a filler.
pub type Asked<'a> = (&'a Note, &'a [u8], &'a [u8]);

/// A call that replaces, compared in the rooms that belong to the result's length; and in words how its input was made.
pub type Call = fn(&mut Tally, Asked, fn(usize) -> Rooms, &dyn Fn() -> String);

/// The note that the Rust original makes, or the refusal that docs/RULES.md gives in any room.
pub fn expected(note: &Note, list: &[u8], filler: &[u8]) -> Result<Note, u32> {
    let refusal = note.refusal();
    if [TOO_LONG, LENGTH_MISMATCH, ILL_FORMED].contains(&refusal) {
        return Err(refusal);
    }
    let filler = from_utf8(filler).map_err(|_| ILL_FORMED)?;
    if refusal == MISALIGNED {
        return Err(MISALIGNED);
    }
    let theirs = note.of_the_original();
    let places = places::read(list).filter(|places| places::cover(theirs.get(), places)).ok_or(BAD_MATCHES)?;
    published(theirs, Given(places.clone()), filler, &places)
}

/// What the original makes of a note and a pattern that finds these places, or `NO_ROOM` where it is past the limit.
/// The original has no limit: far past ours, it would make gigabytes.
pub fn published(
    mut note: NormalizedString,
    pattern: impl Pattern,
    filler: &str,
    places: &[Place],
) -> Result<Note, u32> {
    if places::size(places, filler.len()) > 4 * LIMIT as u64 {
        return Err(NO_ROOM);
    }
    note.replace(pattern, filler).expect("a list or a literal is found");
    if note.len() > LIMIT {
        return Err(NO_ROOM);
    }
    Ok(Note::from(&note))
}

/// The lengths of the three passed buffers.
pub type Rooms = Vec<[usize; 3]>;

/// Just large enough, or larger.
pub fn ample(len: usize) -> Rooms {
    vec![[len, len + 1, len + 2]]
}

/// As above, and none at all.
pub fn ample_or_none(len: usize) -> Rooms {
    vec![[len, len + 1, len + 2], [0; 3]]
}

/// Just large enough, larger, and short in each in turn, in all, and by far.
pub fn rooms(len: usize) -> Rooms {
    let short = len.saturating_sub(1);
    vec![
        [len, len, len],
        [len + 7, len, len],
        [len, len + 100, len + 1],
        [short, len, len],
        [len, short, len],
        [len, len, short],
        [short, short, short],
        [len, len, 0],
        [0, 0, 0],
    ]
}

/// The length that rooms belong to: the result's, and some other where there is none.
pub fn len_for_rooms(note: &Note, published: &Result<Note, u32>) -> usize {
    match published {
        Ok(published) => published.normalized.len(),
        Err(NO_ROOM) => LIMIT + 9,
        Err(_) => note.normalized.len().min(300),
    }
}

/// The published note or the refusal, where the room is enough or not.
pub fn in_room(published: &Result<Note, u32>, enough: bool) -> Result<&Note, u32> {
    match published {
        Err(refusal) => Err(*refusal),
        Ok(_) if !enough => Err(NO_ROOM),
        Ok(published) => Ok(published),
    }
}

/// What the call answers.
pub fn written(left: Result<&Note, u32>) -> Written {
    match left {
        Err(refusal) => Written { refusal, len: 0 },
        Ok(left) => Written { refusal: 0, len: left.normalized.len() },
    }
}

pub fn replace(tally: &mut Tally, (note, list, filler): Asked, rooms: fn(usize) -> Rooms, made: &dyn Fn() -> String) {
    let published = expected(note, list, filler);
    let len = len_for_rooms(note, &published);
    for room in rooms(len) {
        let mut out = Output::new(room);
        let ours = library::replace(note, list, filler, out.passed());
        let left = in_room(&published, room.iter().all(|&room| room >= len));
        let (theirs, held) = (written(left), out.hold(left.ok()));
        tally.case(tally::refusal(ours.refusal), ours != theirs || held != [true; 3], || {
            let input = described((note, list, filler), made);
            format!("ours {ours:?}, theirs {theirs:?}, text, starts, ends equal {held:?}, in rooms {room:?}, {input}")
        });
    }
}

/// An input in words.
pub fn described((note, list, filler): Asked, made: &dyn Fn() -> String) -> String {
    format!("{}: list {}, filler {}, {note}", made(), hex(list), hex(filler))
}

pub fn plainly(tally: &mut Tally, call: Call, note: &Note, places: &[Place], filler: &str, rooms: fn(usize) -> Rooms) {
    call(tally, (note, &places::bytes(places), filler.as_bytes()), rooms, &|| "whole".into());
}

/// Text, places, filler; the result's text and alignments.
type Worked<'a> = (&'a str, &'a [Place], &'a str, &'a str, &'a [(Offset, Offset)]);

/// The answers are written down here, and both sides give them.
pub fn worked_notes(tally: &mut Tally, call: Call) {
    tally.family("worked notes");
    let stars = [(0, 1), (1, 2), (2, 3), (3, 4), (4, 5), (6, 7), (6, 7)];
    let digits: &[Place] = &[((0, 5), false), ((5, 7), true)];
    let before: &[Place] = &[((0, 0), true), ((0, 2), false)];
    let worked: [Worked; 3] = [
        ("nest 12", digits, "**", "nest **", &stars),
        ("nest 47", digits, "**", "nest **", &stars),
        ("ab", before, "x", "xab", &[(0, 0), (0, 1), (1, 2)]),
    ];
    for (text, places, filler, result, alignments) in worked {
        let note = Note::from(&NormalizedString::from(text));
        plainly(tally, call, &note, places, filler, rooms);
        let theirs = expected(&note, &places::bytes(places), filler.as_bytes()).expect("a worked note is accepted");
        let differs = theirs.normalized != result.as_bytes() || !theirs.alignments().eq(alignments.iter().copied());
        tally.case("accepted", differs, || format!("wanted {result} at {alignments:?}, theirs {theirs}"));
    }
}

fn every_list(tally: &mut Tally) {
    tally.family("every sound note of up to 4 bytes, every list with up to 2 empty places, 5 fillers");
    for text in ["", "a", "é", "漢", "😀", "ab", "aé", "éa", "éž", "漢a", "abc", "aéb", "éab", "abé", "abcd"]
    {
        // Boundaries of the transcript: 1 to 3. Four characters on three boundaries are too many.
        let transcripts = if text == "abcd" { &["q", "ů"][..] } else { &["", "q", "ů", "qů"] };
        let notes: Vec<Note> = transcripts.iter().flat_map(|transcript| sound_notes(transcript, text)).collect();
        for places in places::every(text, 2) {
            for note in &notes {
                for filler in FILLERS {
                    plainly(tally, replace, note, &places, filler, ample);
                }
            }
        }
    }
}

fn every_room(tally: &mut Tally) {
    tally.family("starting notes of up to 3 bytes, every list with up to 1 empty place, in every three rooms to 6");
    for text in ["", "a", "é", "ab", "aé", "漢"] {
        let note = Note::from(&NormalizedString::from(text));
        for places in places::every(text, 1) {
            for filler in FILLERS {
                let every = |_| every::list(&[0, 1, 2, 3, 4, 5, 6], 3).map(|r| [r[0], r[1], r[2]]).collect();
                plainly(tally, replace, &note, &places, filler, every);
            }
        }
    }
}

fn any_filler(random: &mut Random) -> String {
    (0..random.below(6)).map(|_| texts::any_scalar(random)).collect()
}

pub fn any_lists(tally: &mut Tally, call: Call) {
    tally.family("notes of any make to 300 bytes, any list to 60 places, any filler to 5 characters, in 9 rooms");
    let mut random = Random::new(41);
    for _ in 0..20_000 {
        let len = random.below(300);
        let note = samples::any(len, &mut random);
        let cuts = random.below(60);
        let places = places::any(note.get(), cuts, &mut random);
        plainly(tally, call, &Note::from(&note), &places, &any_filler(&mut random), rooms);
    }
}

/// Long notes of any make, and any lists of up to so many places, by turns.
pub fn long_notes(tally: &mut Tally, call: Call, turns: usize, most: [usize; 3]) {
    let mut random = Random::new(42);
    for turn in 0..turns {
        let len = samples::long_len(turn, 3, &mut random);
        let note = samples::any(len, &mut random);
        let cuts = random.below(most[turn % 3]);
        let places = places::any(note.get(), cuts, &mut random);
        plainly(tally, call, &Note::from(&note), &places, &any_filler(&mut random), rooms);
    }
}

/// A text, places and a filler.
pub type Input = (String, Vec<Place>, String);

/// Inputs whose results have every size about the limit.
pub fn around_the_limit(tally: &mut Tally, call: Call, of_size: fn(usize) -> Vec<Input>) {
    for size in LIMIT - 2..=LIMIT + 3 {
        for (text, places, filler) in of_size(size) {
            assert_eq!(places::size(&places, filler.len()), size as u64);
            plainly(tally, call, &Note::from(&NormalizedString::from(text)), &places, &filler, rooms);
        }
    }
}

pub fn one_filler_around_the_limit(tally: &mut Tally, call: Call) {
    tally.family("results about the limit in 9 rooms: one filler, in the place of bytes or of nothing");
    around_the_limit(tally, call, |size| {
        let of_unit = |unit: &str| {
            let text = texts::repeated(unit, 1_200);
            let kept = vec![((0, 600), false), ((600, 600), true), ((600, 1_200), false)];
            let inserted = (text.clone(), kept, texts::repeated(unit, size - 1_200));
            [inserted, (text, vec![((0, 1_200), true)], texts::repeated(unit, size))]
        };
        let mut inputs = ["a", "é", "漢", "😀"].map(of_unit).concat();
        if size >= LIMIT {
            let last = vec![((0, LIMIT - 1), false), ((LIMIT - 1, LIMIT), true)];
            inputs.push(("a".repeat(LIMIT), last, "x".repeat(1 + size - LIMIT)));
        }
        inputs
    });
}

fn many_fillers_around_the_limit(tally: &mut Tally) {
    tally.family("results about the limit in 9 rooms: many fillers, in the place of bytes or of nothing");
    around_the_limit(tally, replace, |size| {
        // The filler is 1 byte longer than what it replaces, `grown` times.
        let grown = size - 50_000;
        let every_third = (0..grown).flat_map(|i| [((3 * i, 3 * i + 2), false), ((3 * i + 2, 3 * i + 3), true)]);
        let every_third = every_third.chain([((3 * grown, 50_000), false)]).collect();
        let first = (0..grown).map(|i| ((i, i + 1), true)).chain([((grown, 50_000), false)]).collect();
        let nothing = vec![((0, 0), true); size - 3].into_iter().chain([((0, 3), false)]).collect();
        vec![
            ("a".repeat(50_000), every_third, "é".into()),
            ("a".repeat(50_000), first, "é".into()),
            ("漢".into(), nothing, "x".into()),
        ]
    });
}

pub fn fillers_and_lists_past_the_limit(tally: &mut Tally, call: Call) {
    tally.family("fillers of up to 200000 bytes and lists of up to 1000000, sums past 16 and 32 bits");
    let note = Note::from(&NormalizedString::from("aéb"));
    let nothing = Note::from(&NormalizedString::from(""));
    for len in [LIMIT, LIMIT + 1, LIMIT + 5, 70_000, 131_072, 200_000] {
        for unit in ["x", "é", "漢"] {
            let filler = texts::repeated(unit, len);
            plainly(tally, call, &note, &[((0, 4), false)], &filler, rooms);
            plainly(tally, call, &note, &[((0, 3), false), ((3, 3), false), ((3, 4), false)], &filler, rooms);
            plainly(tally, call, &note, &[((0, 4), true)], &filler, rooms);
            plainly(tally, call, &note, &[((0, 4), false), ((4, 4), true)], &filler, rooms);
            plainly(tally, call, &nothing, &[], &filler, rooms);
            plainly(tally, call, &nothing, &[((0, 0), false)], &filler, rooms);
            plainly(tally, call, &nothing, &[((0, 0), true)], &filler, rooms);
            let damaged = [filler.as_bytes(), &[0xC3]].concat();
            call(tally, (&note, &places::bytes(&[((0, 4), false)]), &damaged), ample, &|| "ill-formed filler".into());
        }
    }
    // Sizes that are 0 or 65,536 modulo 2 to the 32, and long lists.
    for (places, filler) in
        [(1 << 16, 1 << 16), (1 << 16, (1 << 16) + 1), (1 << 15, 1 << 17), (200_000, 0), (200_000, 1)]
    {
        let list = [vec![((0, 0), true); places], vec![((0, 4), false)]].concat();
        plainly(tally, call, &note, &list, &"x".repeat(filler), rooms);
    }
    let unmatched = [vec![((0, 4), false)], vec![((4, 4), false); 200_000]].concat();
    plainly(tally, call, &note, &unmatched, "x", rooms);
}

pub fn damaged_lists(tally: &mut Tally, call: Call) {
    tally.family("every byte of a list changed, cut off, added, left out; every place left out, doubled, swapped");
    for (note, list) in places::lists_to_damage() {
        let rooms = if list.len() > 15 { ample } else { ample_or_none };
        for (made, list) in places::damaged(&list) {
            call(tally, (&note, &list, b"x"), rooms, &|| made.clone());
        }
    }
}

pub fn ill_formed_fillers(tally: &mut Tally, call: Call) {
    tally.family(
        "fillers with a character, or a wrong or cut one, anywhere, beside notes and lists that are whole or not",
    );
    let lists: [&[u8]; 4] = [
        &places::bytes(&[((0, 1), false), ((1, 3), true), ((3, 4), false)]),
        &places::bytes(&[((0, 4), false)]),
        &places::bytes(&[((0, 3), true)]),
        &[12],
    ];
    // A sound note, one with a start too many, and one whose alignments are not sound.
    for note in [0, 1 << 3, 1 << 7].map(notes::with) {
        for list in lists {
            for sequence in sequences() {
                for (before, after) in [(0, 0), (1, 1), (63, 70), (126, 0), (128, 131)] {
                    let filler = [&b"a".repeat(before), &sequence[..], &b"a".repeat(after)].concat();
                    call(tally, (&note, list, &filler), ample_or_none, &|| "whole or not".into());
                }
            }
        }
    }
}

pub fn every_set_of_faults(tally: &mut Tally, call: Call) {
    tally.family("every set of faults out of nine of the note, an ill-formed filler, a bad list and each short room");
    let whole = places::bytes(&[((0, 1), false), ((1, 3), true), ((3, 4), false)]);
    for (set, note) in notes::with_faults() {
        for filler in [&b"**"[..], b"*\xFF"] {
            for list in [&whole[..], &whole[1..]] {
                let in_every_room = |_| every::list(&[3, 4], 3).map(|r| [r[0], r[1], r[2]]).collect();
                call(tally, (&note, list, filler), in_every_room, &|| format!("faults {set:09b}"));
            }
        }
    }
}

pub fn damaged_notes(tally: &mut Tally, call: Call) {
    tally.family("notes of any make, with every damage, beside lists and fillers that are whole or not");
    let mut random = Random::new(44);
    for turn in 0..600 {
        let len = 1 + random.below([10, 40, 300][turn % 3]);
        let note = samples::any(len, &mut random);
        let places = places::any(note.get(), 5, &mut random);
        let note = Note::from(&note);
        let list = places::bytes(&places);
        let mut beside = |note: &Note, made: &str| {
            call(tally, (note, &list, "é".as_bytes()), ample_or_none, &|| made.into());
            call(tally, (note, &list[1..], b"x"), ample, &|| made.into());
            call(tally, (note, &list, b"\xC3"), ample, &|| made.into());
        };
        for (name, damaged) in samples::damaged(&note) {
            beside(&damaged, name);
        }
        let offsets: Vec<usize> = match note.normalized.len() {
            0 => vec![],
            bytes @ 1..=10 => (0..bytes).collect(),
            bytes => vec![0, random.below(bytes), random.below(bytes), bytes - 1],
        };
        for (name, damaged) in offsets.into_iter().flat_map(|offset| samples::damaged_at(&note, offset)) {
            beside(&damaged, name);
        }
    }
}

/// A call whose pointers to read and to write at are these, and whose lengths are all 0.
pub type Unpassed = fn(*const u8, *const Offset, *mut u8, *mut Offset) -> Written;

pub fn nothing_anywhere(tally: &mut Tally, call: Unpassed) {
    tally.family("nothing passed, at any pointer");
    for address in ADDRESSES {
        let ours = call(address as *const u8, address as *const Offset, address as *mut u8, address as *mut Offset);
        let accepted = Written { refusal: 0, len: 0 };
        tally.case(tally::refusal(ours.refusal), ours != accepted, || format!("ours {ours:?} at {address:#x}"));
    }
}

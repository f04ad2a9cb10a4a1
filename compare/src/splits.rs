//! Split offsets beside `PreTokenizedString::get_splits`, without tokens; refusals beside a second judge.

use crate::guarded::Guarded;
use crate::library::{self, pass, Written};
use crate::note::{Note, Offset};
use crate::notes;
use crate::places::{self, Place};
use crate::random::Random;
use crate::ranges::{samples_with_faults, Sample};
use crate::refusals::NO_ROOM;
use crate::samples::{self, ADDRESSES, DAMAGES};
use crate::split::{at_dashes, number, Asked, BEHAVIORS, OTHER_NUMBERS};
use crate::tally::{self, hex, Report, Tally};
use crate::texts::{self, LIMIT, UNITS};
use tokenizers::normalizer::SplitDelimiterBehavior::{Contiguous, Isolated, MergedWithNext};
use tokenizers::pre_tokenizer::OffsetType;
use tokenizers::{NormalizedString, OffsetReferential};

pub fn compare(report: &mut Report) {
    report.call("zulmyren_get_splits", "PreTokenizedString::get_splits and a second judge", |tally| {
        worked_notes(tally);
        every_list(tally);
        every_room(tally);
        any_lists(tally);
        around_blocks(tally);
        long_lists(tally);
        lists_past_the_limit(tally);
        damaged_lists(tally);
        every_set_of_faults(tally);
        damaged_notes(tally);
        other_numbers(tally);
        nothing_anywhere(tally);
    });
}

/// Both numbers of each piece.
pub type Pairs = Vec<(u32, u32)>;

/// What the Rust original answers, or the refusal that docs/RULES.md gives in any room.
pub fn expected(asked: Asked, [of_original, characters]: [bool; 2]) -> Result<Pairs, u32> {
    let referential = if of_original { OffsetReferential::Original } else { OffsetReferential::Normalized };
    let unit = if characters { OffsetType::Char } else { OffsetType::Byte };
    let splits = asked.remaining()?;
    let splits = splits.get_splits(referential, unit);
    Ok(splits.into_iter().map(|(_, (start, end), _)| (start as u32, end as u32)).collect())
}

/// The lengths of the two passed columns.
type Rooms = Vec<(usize, usize)>;

/// Just large enough and larger.
fn ample(len: usize) -> Rooms {
    vec![(len, len + 1)]
}

const WAYS: [[bool; 2]; 4] = [[false, false], [false, true], [true, false], [true, true]];

fn get_splits_so(
    tally: &mut Tally,
    asked: Asked,
    way: [bool; 2],
    rooms: impl FnOnce(usize) -> Rooms,
    made: &dyn Fn() -> String,
) {
    let expected = expected(asked, way);
    let len = expected.as_ref().map_or(4, Vec::len);
    for room in rooms(len) {
        let (mut starts, mut ends) = (Guarded::new(room.0), Guarded::new(room.1));
        let (note, behavior) = (&asked.sample.note, asked.behavior);
        let ours = library::get_splits(note, asked.list, number(behavior), way, starts.part(), ends.part());
        let (refusal, pairs): (u32, &[(u32, u32)]) = match &expected {
            Err(refusal) => (*refusal, &[]),
            Ok(_) if room.0.min(room.1) < len => (NO_ROOM, &[]),
            Ok(pairs) => (0, pairs),
        };
        let theirs = Written { refusal, len: pairs.len() };
        let (their_starts, their_ends): (Vec<u32>, Vec<u32>) = pairs.iter().copied().unzip();
        let held = [starts.holds(&their_starts), ends.holds(&their_ends)];
        tally.case(tally::refusal(ours.refusal), ours != theirs || held != [true; 2], || {
            let ([of_original, characters], list, made) = (way, hex(asked.list), made());
            format!(
                "ours {ours:?}, theirs {theirs:?}, starts, ends equal {held:?}, in rooms {room:?}, {behavior:?}, of the \
                 original {of_original}, in characters {characters}, {made}: list {list}, {note}"
            )
        });
    }
}

/// Every behaviour, both texts, both units.
fn get_splits(
    tally: &mut Tally,
    sample: &Sample,
    list: &[u8],
    rooms: impl Fn(usize) -> Rooms,
    made: impl Fn() -> String,
) {
    for behavior in BEHAVIORS {
        for way in WAYS {
            get_splits_so(tally, Asked { sample, list, behavior }, way, &rooms, &made);
        }
    }
}

fn plainly(tally: &mut Tally, sample: &Sample, places: &[Place], rooms: impl Fn(usize) -> Rooms) {
    get_splits(tally, sample, &places::bytes(places), rooms, || "whole".into());
}

/// One behaviour and one way at a time, the next one each turn: a long transcript's map takes the original its time.
pub fn by_turns(tally: &mut Tally, sample: &Sample, list: &[u8], turn: usize, rooms: impl FnOnce(usize) -> Rooms) {
    let asked = Asked { sample, list, behavior: BEHAVIORS[turn % 5] };
    get_splits_so(tally, asked, WAYS[turn / 5 % 4], rooms, &|| format!("turn {turn}"));
}

/// A note, a list, whether offsets are of the transcript and in characters; the offsets.
type Worked<'a> = (&'a Sample, &'a [u8], [bool; 2], &'a [(u32, u32)]);

/// The answers are written down here, and both sides give them.
fn worked_notes(tally: &mut Tally) {
    tally.family("worked notes");
    let text = "thé-final--countdown";
    let fresh = Sample::from(NormalizedString::from(text));
    let list = places::bytes(&at_dashes(text));
    let mut sliced = Note::from(&NormalizedString::from("é-é"));
    sliced.original_shift = 2;
    let sliced = Sample::from(sliced);
    let short = places::bytes(&at_dashes("é-é"));
    let worked: [Worked; 6] = [
        (&fresh, &list, [true, false], &[(0, 4), (4, 10), (10, 11), (11, 21)]),
        (&fresh, &list, [true, true], &[(0, 3), (3, 9), (9, 10), (10, 20)]),
        (&fresh, &list, [false, true], &[(0, 3), (3, 9), (9, 10), (10, 20)]),
        // Bytes of a longer transcript, looked up in this one: some are past it, and stay as they are.
        (&sliced, &short, [true, false], &[(2, 4), (4, 5), (5, 7)]),
        (&sliced, &short, [true, true], &[(1, 2), (2, 3), (5, 7)]),
        (&sliced, &short, [false, true], &[(0, 1), (1, 2), (2, 3)]),
    ];
    for (sample, list, way, pairs) in worked {
        get_splits(tally, sample, list, notes::rooms, || "whole".into());
        let behavior = if sample.note.original_shift == 0 { MergedWithNext } else { Isolated };
        let theirs = expected(Asked { sample, list, behavior }, way).expect("it is accepted");
        tally.case("accepted", theirs != pairs, || format!("wanted {pairs:?}, theirs {theirs:?}"));
    }
}

fn every_list(tally: &mut Tally) {
    tally.family("every sound note of up to 4 bytes, every list with up to 1 empty place");
    for text in ["", "a", "é", "漢", "😀", "ab", "aé", "éa", "éž", "漢a", "abc", "aéb", "éab", "abé"] {
        let notes = ["", "q", "ů", "qů", "ůq"].iter().flat_map(|transcript| samples::sound_notes(transcript, text));
        let samples: Vec<Sample> = notes
            .enumerate()
            .map(|(i, note)| {
                let shift = [0, 1, 2, LIMIT - note.original.len()][i % 4];
                Sample::from(Note { original_shift: shift as u32, ..note })
            })
            .collect();
        for places in places::every(text, 1) {
            for sample in &samples {
                plainly(tally, sample, &places, ample);
            }
        }
    }
}

fn every_room(tally: &mut Tally) {
    tally.family("starting notes of up to 3 bytes, every list with up to 1 empty place, in 9 rooms");
    for text in ["", "a", "é", "ab", "aé", "漢", "abc"] {
        let sample = Sample::from(NormalizedString::from(text));
        for places in places::every(text, 1) {
            plainly(tally, &sample, &places, notes::rooms);
        }
    }
}

fn any_lists(tally: &mut Tally) {
    tally.family("notes of any make to 300 bytes, with any shift, any list to 60 places, in 9 rooms");
    let mut random = Random::new(100);
    for _ in 0..1_000 {
        let len = random.below(300);
        let note = samples::any(len, &mut random);
        let cuts = random.below(60);
        let places = places::any(note.get(), cuts, &mut random);
        let mut note = Note::from(&note);
        // Small shifts leave the offsets in the transcript, or take them just past it.
        note.original_shift = match random.below(3) {
            0 => random.below(len + 3) as u32,
            _ => note.original_shift,
        };
        plainly(tally, &Sample::from(note), &places, notes::rooms);
    }
}

fn around_blocks(tally: &mut Tally) {
    tally.family("starting and scattered notes of 600 bytes, places that end within two of every multiple of 64");
    let mut random = Random::new(101);
    for unit in UNITS {
        let text = texts::repeated(unit, 600);
        let scattered = samples::scattered(texts::repeated("é漢", 700), text.clone(), &mut random);
        for sample in [NormalizedString::from(text.as_str()), scattered].map(Sample::from) {
            for turn in 0..40 {
                let list = places::bytes(&places::near_blocks(&text, &mut random));
                by_turns(tally, &sample, &list, turn, ample);
            }
        }
    }
}

fn long_lists(tally: &mut Tally) {
    tally.family("notes of any make up to the limit, any list to one place more than the limit, in 9 rooms");
    let mut random = Random::new(102);
    for turn in 0..80 {
        let len = samples::long_len(turn, 3, &mut random);
        let note = samples::any(len, &mut random);
        let most = [100, 3_000, LIMIT + 1][turn % 3];
        let cuts = random.below(most);
        let list = places::bytes(&places::any(note.get(), cuts, &mut random));
        by_turns(tally, &Sample::from(note), &list, turn, notes::rooms);
    }
}

fn lists_past_the_limit(tally: &mut Tally) {
    tally.family("lists of up to 1000000 bytes: more places than a text has bytes, empty ones, in 9 rooms");
    let sample = Sample::from(NormalizedString::from("aéb"));
    for matched in [false, true] {
        for places in [LIMIT - 1, LIMIT, LIMIT + 1, 200_000] {
            for at in [0, 4] {
                let empty = vec![((at, at), matched); places];
                let whole = vec![((0, 4), !matched)];
                let list = if at == 0 { [empty, whole].concat() } else { [whole, empty].concat() };
                plainly(tally, &sample, &list, ample);
            }
        }
    }
}

fn damaged_lists(tally: &mut Tally) {
    tally.family("every byte of a list changed, cut off, added, left out; every place left out, doubled, swapped");
    for (note, list) in places::lists_to_damage() {
        let sample = Sample::from(note);
        let rooms = |len| vec![(len, len), (0, 0)];
        for (turn, (_, list)) in places::damaged(&list).into_iter().enumerate() {
            by_turns(tally, &sample, &list, turn, rooms);
        }
    }
}

fn every_set_of_faults(tally: &mut Tally) {
    tally.family("every set of faults out of nine of the note, a bad list and rooms that are short");
    let whole = places::bytes(&[((0, 1), false), ((1, 3), true), ((3, 4), false)]);
    for sample in samples_with_faults() {
        for list in [&whole[..], &whole[1..]] {
            get_splits(tally, &sample, list, |_| vec![(3, 3), (3, 0), (0, 3), (0, 0)], || "faults".into());
        }
    }
}

fn damaged_notes(tally: &mut Tally) {
    tally.family("notes of any make, with every damage, beside lists that are whole or not");
    let mut random = Random::new(104);
    for turn in 0..200 {
        let len = 1 + random.below([10, 40, 300][turn % 3]);
        let note = samples::any(len, &mut random);
        let places = places::any(note.get(), 5, &mut random);
        let note = Note::from(&note);
        let list = places::bytes(&places);
        let mut beside = |note: Note, turn: usize| {
            let sample = Sample::from(note);
            by_turns(tally, &sample, &list, turn, |len| vec![(len, len), (0, 0)]);
            by_turns(tally, &sample, &list[1..], turn, |len| vec![(len, len), (0, 0)]);
        };
        for (i, (_, damaged)) in samples::damaged(&note).enumerate() {
            beside(damaged, turn + i);
        }
        if note.normalized.is_empty() {
            continue;
        }
        let offset = random.below(note.normalized.len());
        for (i, (_, mut damaged)) in samples::damaged_at(&note, offset).enumerate() {
            beside(damaged.clone(), turn + i);
            random.choose(&DAMAGES).1(&mut damaged);
            beside(damaged, turn + i + 1);
        }
    }
}

/// Any number but 1 to 4 means the last behaviour.
fn other_numbers(tally: &mut Tally) {
    tally.family("other numbers than those of the behaviours");
    let (sample, list) = (Sample::from(NormalizedString::from("a--é")), places::bytes(&at_dashes("a--é")));
    for number in OTHER_NUMBERS {
        for way in WAYS {
            let [mut starts, mut ends] = [(); 2].map(|()| Guarded::new(3));
            let ours = library::get_splits(&sample.note, &list, number, way, starts.part(), ends.part());
            let theirs = expected(Asked { sample: &sample, list: &list, behavior: Contiguous }, way);
            let (their_starts, their_ends): (Vec<u32>, Vec<u32>) = theirs.expect("the list covers").into_iter().unzip();
            let differs = ours.len != 3 || !starts.holds(&their_starts) || !ends.holds(&their_ends);
            tally.case(tally::refusal(ours.refusal), differs, || format!("ours {ours:?}, behaviour {number}, {way:?}"));
        }
    }
}

fn nothing_anywhere(tally: &mut Tally) {
    tally.family("nothing passed, at any pointer");
    for address in ADDRESSES {
        let (text, column, wide) = (address as *const u8, address as *const Offset, address as *mut u32);
        for behavior in BEHAVIORS {
            for [of_original, characters] in WAYS {
                let ours = unsafe {
                    pass!(library::zulmyren_get_splits; plain text, plain 0, plain text, plain 0, plain column, plain 0,
                        plain column, plain 0, plain 0, plain text, plain 0, plain number(behavior), plain of_original,
                        plain characters, plain wide, plain 0, plain wide, plain 0)
                };
                let accepted = Written { refusal: 0, len: 0 };
                tally.case(tally::refusal(ours.refusal), ours != accepted, || format!("ours {ours:?} at {address:#x}"));
            }
        }
    }
}

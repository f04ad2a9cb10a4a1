//! Splitting beside `NormalizedString::split`, and where empty pieces are dropped beside `PreTokenizedString::split`;
//! refusals beside a second judge.

use crate::every;
use crate::guarded::Guarded;
use crate::library::{self, pass, Cut, Cutting};
use crate::note::{offset, position, Note, Offset};
use crate::places::{self, Given, Place};
use crate::random::Random;
use crate::ranges::{samples_with_faults, Sample};
use crate::refusals::{BAD_MATCHES, NO_ROOM};
use crate::samples::{self, ADDRESSES, DAMAGES};
use crate::tally::{self, hex, Report, Tally};
use crate::texts::{self, LIMIT, UNITS};
use tokenizers::normalizer::SplitDelimiterBehavior::{
    self, Contiguous, Isolated, MergedWithNext, MergedWithPrevious, Removed,
};
use tokenizers::pre_tokenizer::PreTokenizedString;
use tokenizers::NormalizedString;

/// In the order of their numbers in C, from 1 on.
pub const BEHAVIORS: [SplitDelimiterBehavior; 5] = [Removed, Isolated, MergedWithPrevious, MergedWithNext, Contiguous];

/// They mean the last behaviour, too.
pub const OTHER_NUMBERS: [u32; 7] = [0, 5, 6, 255, 257, 1 << 31, u32::MAX];

pub fn number(behavior: SplitDelimiterBehavior) -> u32 {
    1 + BEHAVIORS.iter().position(|&known| known == behavior).expect("one of five") as u32
}

pub fn compare(report: &mut Report) {
    report.call("zulmyren_split", "the two splits of the original and a second judge", |tally| {
        worked_notes(tally);
        every_list(tally);
        every_room(tally);
        any_lists(tally);
        around_blocks(tally);
        long_lists(tally);
        lists_past_the_limit(tally);
        damaged_lists(tally);
        every_set_of_faults(tally);
        damaged_notes(tally);
        other_numbers(tally);
        nothing_anywhere(tally);
    });
}

/// What an accepted call leaves: a number of each for every piece, and the pieces' alignments, end to end.
#[derive(Default)]
pub struct Columns {
    pub starts: Vec<Offset>,
    pub ends: Vec<Offset>,
    pub shifts: Vec<u32>,
    pub lengths: Vec<Offset>,
    pub alignment_starts: Vec<Offset>,
    pub alignment_ends: Vec<Offset>,
}

impl Columns {
    /// How many pieces there are, and how many alignments.
    pub fn sizes(&self) -> (usize, usize) {
        (self.starts.len(), self.alignment_starts.len())
    }

    fn push(&mut self, start: usize, piece: &NormalizedString) {
        let Note { starts, ends, .. } = Note::from(piece);
        self.starts.push(offset(start));
        self.ends.push(offset(start + piece.len()));
        self.shifts.push(piece.original_shift() as u32);
        self.lengths.push(offset(piece.len_original()));
        self.alignment_starts.extend(starts);
        self.alignment_ends.extend(ends);
    }
}

/// A note, the places that are to cut it, and how.
#[derive(Clone, Copy)]
pub struct Asked<'a> {
    pub sample: &'a Sample,
    pub list: &'a [u8],
    pub behavior: SplitDelimiterBehavior,
}

impl Asked<'_> {
    /// The places of the list, or the refusal that docs/RULES.md gives in any room.
    pub fn places(&self) -> Result<Vec<Place>, u32> {
        let text = self.sample.theirs()?.get();
        places::read(self.list).filter(|places| places::cover(text, places)).ok_or(BAD_MATCHES)
    }

    /// As `PreTokenizedString::split` leaves it.
    pub fn remaining(&self) -> Result<PreTokenizedString, u32> {
        let (note, places) = (self.sample.theirs()?, self.places()?);
        let mut remaining = PreTokenizedString::from(note.clone());
        remaining.split(|_, note| note.split(Given(places.clone()), self.behavior)).expect("the places are given");
        Ok(remaining)
    }

    fn pieces(&self, drop_empty: bool) -> Result<Vec<NormalizedString>, u32> {
        if drop_empty {
            Ok(self.remaining()?.pieces().cloned().collect())
        } else {
            let (note, places) = (self.sample.theirs()?, self.places()?);
            Ok(note.split(Given(places), self.behavior).expect("the places are given"))
        }
    }

    pub fn expected(&self, drop_empty: bool) -> Result<Columns, u32> {
        let (note, pieces) = (self.sample.theirs()?, self.pieces(drop_empty)?);
        // The original does not say where a piece begins. `Removed` leaves the unmatched places; of the others each
        // begins where the last ended.
        let unmatched =
            self.places()?.into_iter().filter(|&((start, end), matched)| !matched && (!drop_empty || start < end));
        let mut unmatched = unmatched.map(|((start, _), _)| start);
        let (mut columns, mut end) = (Columns::default(), 0);
        for piece in &pieces {
            let start = if self.behavior == Removed { unmatched.next().expect("a place for each piece") } else { end };
            end = start + piece.len();
            assert_eq!(&note.get()[start..end], piece.get());
            columns.push(start, piece);
        }
        assert!(self.behavior != Removed || unmatched.next().is_none(), "a piece for each unmatched place");
        Ok(columns)
    }
}

/// The lengths of the passed buffers: four for the pieces, two for their alignments.
type Rooms = Vec<[usize; 6]>;

/// Just large enough, and larger.
fn ample((pieces, alignments): (usize, usize)) -> Rooms {
    vec![[pieces, pieces + 1, pieces, pieces + 2, alignments, alignments + 1]]
}

fn ample_or_none(sizes: (usize, usize)) -> Rooms {
    [ample(sizes), vec![[0; 6]]].concat()
}

/// Just large enough, larger, and short in each in turn, in all, and by far.
fn rooms((pieces, alignments): (usize, usize)) -> Rooms {
    let enough = [pieces, pieces, pieces, pieces, alignments, alignments];
    let short = (0..6).map(|i| {
        let mut room = enough;
        room[i] = room[i].saturating_sub(1);
        room
    });
    [enough, enough.map(|len| len + 9), [0; 6]].into_iter().chain(short).collect()
}

/// The buffers of one call, between guards.
struct Buffers {
    starts: Guarded<Offset>,
    ends: Guarded<Offset>,
    shifts: Guarded<u32>,
    lengths: Guarded<Offset>,
    alignment_starts: Guarded<Offset>,
    alignment_ends: Guarded<Offset>,
}

impl Buffers {
    fn new(room: [usize; 6]) -> Self {
        Buffers {
            starts: Guarded::new(room[0]),
            ends: Guarded::new(room[1]),
            shifts: Guarded::new(room[2]),
            lengths: Guarded::new(room[3]),
            alignment_starts: Guarded::new(room[4]),
            alignment_ends: Guarded::new(room[5]),
        }
    }

    fn out(&mut self) -> Cutting<'_> {
        Cutting {
            starts: self.starts.part(),
            ends: self.ends.part(),
            shifts: self.shifts.part(),
            lengths: self.lengths.part(),
            alignment_starts: self.alignment_starts.part(),
            alignment_ends: self.alignment_ends.part(),
        }
    }

    fn hold(&self, columns: &Columns) -> [bool; 6] {
        [
            self.starts.holds(&columns.starts),
            self.ends.holds(&columns.ends),
            self.shifts.holds(&columns.shifts),
            self.lengths.holds(&columns.lengths),
            self.alignment_starts.holds(&columns.alignment_starts),
            self.alignment_ends.holds(&columns.alignment_ends),
        ]
    }
}

fn split_so(
    tally: &mut Tally,
    asked: Asked,
    drop_empty: bool,
    rooms: impl FnOnce((usize, usize)) -> Rooms,
    made: &dyn Fn() -> String,
) {
    let expected = asked.expected(drop_empty);
    let sizes = expected.as_ref().map_or((4, 4), Columns::sizes);
    let nothing = Columns::default();
    for room in rooms(sizes) {
        let (pieces, alignments) = sizes;
        let small = room[..4].iter().any(|&len| len < pieces) || room[4..].iter().any(|&len| len < alignments);
        let (refusal, columns) = match &expected {
            Err(refusal) => (*refusal, &nothing),
            Ok(_) if small => (NO_ROOM, &nothing),
            Ok(columns) => (0, columns),
        };
        let mut buffers = Buffers::new(room);
        let (note, behavior) = (&asked.sample.note, asked.behavior);
        let ours = library::split(note, asked.list, number(behavior), drop_empty, buffers.out());
        let (len, alignments_len) = columns.sizes();
        let theirs = Cut { refusal, len, alignments_len };
        let held = buffers.hold(columns);
        tally.case(tally::refusal(ours.refusal), ours != theirs || held != [true; 6], || {
            let (list, made) = (hex(asked.list), made());
            format!(
                "ours {ours:?}, theirs {theirs:?}, buffers equal {held:?}, in rooms {room:?}, {behavior:?}, empty ones \
                 dropped {drop_empty}, {made}: list {list}, {note}"
            )
        });
    }
}

/// Every behaviour, with empty pieces and without.
fn split(
    tally: &mut Tally,
    sample: &Sample,
    list: &[u8],
    rooms: impl Fn((usize, usize)) -> Rooms,
    made: impl Fn() -> String,
) {
    for behavior in BEHAVIORS {
        for drop_empty in [false, true] {
            split_so(tally, Asked { sample, list, behavior }, drop_empty, &rooms, &made);
        }
    }
}

fn plainly(tally: &mut Tally, sample: &Sample, places: &[Place], rooms: impl Fn((usize, usize)) -> Rooms) {
    split(tally, sample, &places::bytes(places), rooms, || "whole".into());
}

/// One way at a time, the next one each turn: which lists are refused is the same for all.
pub fn by_turns(tally: &mut Tally, sample: &Sample, list: &[u8], turn: usize, made: &dyn Fn() -> String) {
    let asked = Asked { sample, list, behavior: BEHAVIORS[turn % 5] };
    split_so(tally, asked, turn.is_multiple_of(2), ample_or_none, made);
}

/// A text and a behaviour; the pieces of cutting at `-`.
type Worked<'a> = (&'a str, SplitDelimiterBehavior, &'a [&'a str]);

/// The places of cutting a text at `-`.
pub fn at_dashes(text: &str) -> Vec<Place> {
    let runs = text.as_bytes().chunk_by(|&one, &other| one != b'-' && other != b'-');
    let mut start = 0;
    let mut place = |run: &[u8]| {
        let place = ((start, start + run.len()), run == b"-");
        start += run.len();
        place
    };
    runs.map(&mut place).collect()
}

/// The answers are written down here, and both sides give them.
fn worked_notes(tally: &mut Tally) {
    tally.family("worked notes");
    let long = "the-final--countdown";
    let worked: [Worked; 6] = [
        (long, Removed, &["the", "final", "countdown"]),
        (long, Isolated, &["the", "-", "final", "-", "-", "countdown"]),
        (long, MergedWithPrevious, &["the-", "final-", "-", "countdown"]),
        (long, MergedWithNext, &["the", "-final", "-", "-countdown"]),
        (long, Contiguous, &["the", "-", "final", "--", "countdown"]),
        ("-a", MergedWithPrevious, &["-", "a"]),
    ];
    for (text, behavior, pieces) in worked {
        let sample = Sample::from(NormalizedString::from(text));
        let list = places::bytes(&at_dashes(text));
        split(tally, &sample, &list, rooms, || "whole".into());
        let columns = Asked { sample: &sample, list: &list, behavior }.expected(false).expect("it is accepted");
        let cut = |(&start, &end): (&Offset, &Offset)| &text[position(start)..position(end)];
        let theirs: Vec<&str> = columns.starts.iter().zip(&columns.ends).map(cut).collect();
        tally.case("accepted", theirs != pieces, || format!("wanted {pieces:?}, theirs {theirs:?}"));
    }
}

fn every_list(tally: &mut Tally) {
    tally.family("every sound note of up to 4 bytes, every list with up to 2 empty places");
    for text in ["", "a", "é", "漢", "😀", "ab", "aé", "éa", "éž", "漢a", "abc", "aéb", "éab", "abé", "abcd"]
    {
        // Boundaries of the transcript: 1 to 3. Four characters on three boundaries are too many.
        let transcripts = if text == "abcd" { &["q", "ů"][..] } else { &["", "q", "ů", "qů"] };
        let notes = transcripts.iter().flat_map(|transcript| samples::sound_notes(transcript, text)).enumerate();
        let samples: Vec<Sample> = notes
            .map(|(i, note)| {
                let shift = if i % 2 == 0 { 0 } else { LIMIT - note.original.len() };
                Sample::from(Note { original_shift: shift as u32, ..note })
            })
            .collect();
        for places in places::every(text, 2) {
            for sample in &samples {
                plainly(tally, sample, &places, ample);
            }
        }
    }
}

fn every_room(tally: &mut Tally) {
    tally.family("starting notes of up to 3 bytes, every list with up to 1 empty place, short in each buffer in turn");
    for text in ["", "a", "é", "ab", "aé", "漢", "abc"] {
        let sample = Sample::from(NormalizedString::from(text));
        for places in places::every(text, 1) {
            plainly(tally, &sample, &places, |sizes| {
                let rows = every::list(&[0, 1, 2, 3, 4], 2).map(|r| [r[0], r[0], r[0], r[0], r[1], r[1]]);
                rows.chain(rooms(sizes)).collect()
            });
        }
    }
}

fn any_lists(tally: &mut Tally) {
    tally.family("notes of any make to 300 bytes, any list to 60 places, in 9 rooms");
    let mut random = Random::new(90);
    for _ in 0..3_000 {
        let len = random.below(300);
        let note = samples::any(len, &mut random);
        let cuts = random.below(60);
        let places = places::any(note.get(), cuts, &mut random);
        plainly(tally, &Sample::from(note), &places, rooms);
    }
}

fn around_blocks(tally: &mut Tally) {
    tally.family("starting and scattered notes of 600 bytes, places that end within two of every multiple of 64");
    let mut random = Random::new(91);
    for unit in UNITS {
        let text = texts::repeated(unit, 600);
        let scattered = samples::scattered(texts::repeated("é漢", 700), text.clone(), &mut random);
        for sample in [NormalizedString::from(text.as_str()), scattered].map(Sample::from) {
            for _ in 0..40 {
                plainly(tally, &sample, &places::near_blocks(&text, &mut random), ample);
            }
        }
    }
}

fn long_lists(tally: &mut Tally) {
    tally.family("notes of any make up to the limit, any list to one place more than the limit, in 9 rooms");
    let mut random = Random::new(92);
    for turn in 0..40 {
        let len = samples::long_len(turn, 3, &mut random);
        let note = samples::any(len, &mut random);
        let most = [100, 3_000, LIMIT + 1][turn % 3];
        let cuts = random.below(most);
        let places = places::any(note.get(), cuts, &mut random);
        plainly(tally, &Sample::from(note), &places, rooms);
    }
}

fn lists_past_the_limit(tally: &mut Tally) {
    tally.family("lists of up to 1000000 bytes: more places than a text has bytes, empty ones, in 9 rooms");
    let mut shifted = Note::from(&NormalizedString::from("aéb"));
    shifted.original_shift = (LIMIT - 4) as u32;
    let sample = Sample::from(shifted);
    for matched in [false, true] {
        for places in [LIMIT - 1, LIMIT, LIMIT + 1, 200_000] {
            for at in [0, 4] {
                let empty = vec![((at, at), matched); places];
                let whole = vec![((0, 4), !matched)];
                let list = if at == 0 { [empty, whole].concat() } else { [whole, empty].concat() };
                plainly(tally, &sample, &list, rooms);
            }
        }
    }
    // By turns matched and not, so that most behaviours join them.
    let turns: Vec<Place> = (0..70_000).map(|i| ((4, 4), i % 2 == 0)).collect();
    plainly(tally, &sample, &[vec![((0, 4), false)], turns].concat(), rooms);
}

fn damaged_lists(tally: &mut Tally) {
    tally.family("every byte of a list changed, cut off, added, left out; every place left out, doubled, swapped");
    for (note, list) in places::lists_to_damage() {
        let sample = Sample::from(note);
        for (turn, (made, list)) in places::damaged(&list).into_iter().enumerate() {
            by_turns(tally, &sample, &list, turn, &|| made.clone());
        }
    }
}

fn every_set_of_faults(tally: &mut Tally) {
    tally.family("every set of faults out of nine of the note, a bad list and rooms that are short");
    let whole = places::bytes(&[((0, 1), false), ((1, 3), true), ((3, 4), false)]);
    for sample in samples_with_faults() {
        for list in [&whole[..], &whole[1..]] {
            split(tally, &sample, list, rooms, || "faults".into());
        }
    }
}

fn damaged_notes(tally: &mut Tally) {
    tally.family("notes of any make, with every damage, beside lists that are whole or not");
    let mut random = Random::new(94);
    for turn in 0..200 {
        let len = 1 + random.below([10, 40, 300][turn % 3]);
        let note = samples::any(len, &mut random);
        let places = places::any(note.get(), 5, &mut random);
        let note = Note::from(&note);
        let list = places::bytes(&places);
        let mut beside = |note: Note, made: &str, turn: usize| {
            let sample = Sample::from(note);
            by_turns(tally, &sample, &list, turn, &|| made.into());
            by_turns(tally, &sample, &list[1..], turn, &|| made.into());
        };
        for (i, (name, damaged)) in samples::damaged(&note).enumerate() {
            beside(damaged, name, turn + i);
        }
        if note.normalized.is_empty() {
            continue;
        }
        let offset = random.below(note.normalized.len());
        for (i, (name, mut damaged)) in samples::damaged_at(&note, offset).enumerate() {
            beside(damaged.clone(), name, turn + i);
            random.choose(&DAMAGES).1(&mut damaged);
            beside(damaged, name, turn + i + 1);
        }
    }
}

fn other_numbers(tally: &mut Tally) {
    tally.family("other numbers than those of the behaviours");
    let (sample, list) = (Sample::from(NormalizedString::from("a--é")), places::bytes(&at_dashes("a--é")));
    let columns = Asked { sample: &sample, list: &list, behavior: Contiguous }.expected(false).expect("it is accepted");
    for number in OTHER_NUMBERS {
        let mut buffers = Buffers::new([3, 3, 3, 3, 5, 5]);
        let ours = library::split(&sample.note, &list, number, false, buffers.out());
        let differs = ours != Cut { refusal: 0, len: 3, alignments_len: 5 } || buffers.hold(&columns) != [true; 6];
        tally.case(tally::refusal(ours.refusal), differs, || format!("ours {ours:?}, behaviour {number}"));
    }
}

fn nothing_anywhere(tally: &mut Tally) {
    tally.family("nothing passed, at any pointer");
    for address in ADDRESSES {
        let (text, column, wide) = (address as *const u8, address as *mut Offset, address as *mut u32);
        for behavior in BEHAVIORS {
            for drop_empty in [false, true] {
                let ours = unsafe {
                    pass!(library::zulmyren_split; plain text, plain 0, plain text, plain 0, plain column, plain 0,
                        plain column, plain 0, plain 0, plain text, plain 0, plain number(behavior), plain drop_empty,
                        plain column, plain 0, plain column, plain 0, plain wide, plain 0, plain column, plain 0,
                        plain column, plain 0, plain column, plain 0)
                };
                let accepted = Cut { refusal: 0, len: 0, alignments_len: 0 };
                tally.case(tally::refusal(ours.refusal), ours != accepted, || format!("ours {ours:?} at {address:#x}"));
            }
        }
    }
}

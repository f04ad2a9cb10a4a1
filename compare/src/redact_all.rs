//! Blanking several literals in a note: beside `NormalizedString::replace`, one after the other, with `core::str` to
//! count matches, and refusals beside a second judge.

use crate::characters::sequences;
use crate::every;
use crate::guarded::Guarded;
use crate::library::{self, PairCounts, Publishing, Redactions};
use crate::note::{Note, Offset};
use crate::notes;
use crate::random::Random;
use crate::redact_note::literal_of;
use crate::refusals::{self, ILL_FORMED, LENGTH_MISMATCH, NO_ROOM, TOO_LONG};
use crate::samples::{self, sound_notes, ADDRESSES, FILLERS};
use crate::tally::{self, hex, Report, Tally};
use crate::texts::LIMIT;
use std::str::from_utf8;
use tokenizers::NormalizedString;

pub fn compare(report: &mut Report) {
    report.call("zulmyren_redact_all", "NormalizedString::replace for each pair, and a second judge", |tally| {
        worked_notes(tally);
        every_two_pairs(tally);
        every_note(tally);
        every_room(tally);
        any_pairs(tally);
        long_notes(tally);
        many_pairs(tally);
        around_the_limit(tally);
        sizes_that_do_not_fit(tally);
        ill_formed_words(tally);
        every_set_of_faults(tally);
        damaged_notes(tally);
        nothing_anywhere(tally);
    });
    report.call("zulmyren_redact_all and its steps", "zulmyren_redact_note for each pair", one_by_one);
}

/// A literal and its filler.
pub type Pair<'a> = [&'a str; 2];

/// Pairs as the call takes them: the bytes of all words end to end, and the size of each.
#[derive(Clone, Default)]
struct Words {
    bytes: Vec<u8>,
    sizes: Vec<u32>,
}

impl Words {
    fn of(words: &[&[u8]]) -> Self {
        Words { bytes: words.concat(), sizes: words.iter().map(|word| word.len() as u32).collect() }
    }

    fn of_pairs(pairs: &[Pair]) -> Self {
        Words::of(&pairs.concat().into_iter().map(str::as_bytes).collect::<Vec<&[u8]>>())
    }

    /// Each word, where the sizes add up.
    fn words(&self) -> Vec<&[u8]> {
        let mut rest = &self.bytes[..];
        let mut word = |&size: &u32| {
            let (word, after) = rest.split_at(size as usize);
            rest = after;
            word
        };
        self.sizes.iter().map(&mut word).collect()
    }

    /// 0, or the first refusal met.
    fn refusal(&self) -> u32 {
        let total: u64 = self.sizes.iter().copied().map(u64::from).sum();
        if self.sizes.len() > 2 * LIMIT {
            TOO_LONG
        } else if self.sizes.len() % 2 == 1 || total != self.bytes.len() as u64 {
            LENGTH_MISMATCH
        } else if self.words().iter().any(|word| from_utf8(word).is_err()) {
            ILL_FORMED
        } else {
            0
        }
    }
}

/// What is left of a note, and the three counts of each pair.
#[derive(Default)]
pub struct Redacted {
    pub note: Note,
    pub blanked: Vec<u32>,
    pub left: Vec<u32>,
    pub fillers: Vec<u32>,
}

impl Redacted {
    fn answer(&self) -> Redactions {
        let some = |counts: &[u32]| counts.iter().filter(|&&count| count > 0).count();
        Redactions {
            refusal: 0,
            len: self.note.normalized.len(),
            not_found: self.blanked.len() - some(&self.blanked),
            left: some(&self.left),
            fillers_found: some(&self.fillers),
        }
    }

    fn sizes(&self) -> Rooms {
        let (len, pairs) = (self.note.normalized.len(), self.blanked.len());
        [len, len, len, pairs, pairs, pairs]
    }
}

/// An empty word is nowhere.
fn count(text: &str, word: &str) -> u32 {
    if word.is_empty() {
        return 0;
    }
    text.matches(word).count() as u32
}

/// What the Rust original makes of a sound note, each literal in what the one before left; `NO_ROOM` where a step is
/// past the limit.
pub fn redacted(note: &Note, pairs: &[Pair]) -> Result<Redacted, u32> {
    let mut theirs = note.of_the_original();
    let first = theirs.get().to_owned();
    let mut blanked = vec![];
    for [literal, filler] in pairs {
        let found = count(theirs.get(), literal);
        // Far past the limit, the original would make gigabytes. Its regular expressions refuse very long literals.
        let size = theirs.len() + found as usize * filler.len() - found as usize * literal.len();
        if size > LIMIT {
            return Err(NO_ROOM);
        }
        if literal.len() <= LIMIT {
            theirs.replace(*literal, filler).expect("a literal is a regular expression");
        }
        assert_eq!(theirs.len(), size, "{literal} by {filler}");
        blanked.push(found);
    }
    let left = pairs.iter().map(|[literal, _]| count(theirs.get(), literal)).collect();
    let fillers = pairs.iter().map(|[_, filler]| count(&first, filler)).collect();
    Ok(Redacted { note: Note::from(&theirs), blanked, left, fillers })
}

/// The same, or the refusal that docs/RULES.md gives in any room.
fn expected(note: &Note, words: &Words) -> Result<Redacted, u32> {
    if let Some(refusal) = refusals::first(&[note.refusal(), words.refusal()]) {
        return Err(refusal);
    }
    let words: Vec<&str> = words.words().into_iter().map(|word| from_utf8(word).expect("it was judged")).collect();
    redacted(note, &words.chunks(2).map(|pair| [pair[0], pair[1]]).collect::<Vec<Pair>>())
}

/// The lengths of the passed buffers, in the call's order: text, starts, ends, blanked, left, fillers.
type Rooms = [usize; 6];

/// Guarded buffers of these lengths.
struct Buffers {
    text: Guarded<u8>,
    columns: [Guarded<Offset>; 2],
    counts: [Guarded<u32>; 3],
}

impl Buffers {
    fn new(rooms: Rooms) -> Self {
        Buffers {
            text: Guarded::new(rooms[0]),
            columns: [1, 2].map(|i| Guarded::new(rooms[i])),
            counts: [3, 4, 5].map(|i| Guarded::new(rooms[i])),
        }
    }

    fn redact_all(&mut self, note: &Note, words: &Words) -> Redactions {
        let ([starts, ends], [blanked, left, fillers]) = (&mut self.columns, &mut self.counts);
        let out = Publishing { text: self.text.part(), starts: starts.part(), ends: ends.part() };
        let counts = PairCounts { blanked: blanked.part(), left: left.part(), fillers: fillers.part() };
        library::redact_all(note, &words.bytes, &words.sizes, out, counts)
    }

    /// Which of them hold what they are to, and are untouched after it.
    fn hold(&self, wanted: &Redacted) -> [bool; 6] {
        let (Note { normalized, starts, ends, .. }, [blanked, left, fillers]) = (&wanted.note, &self.counts);
        [
            self.text.holds(normalized),
            self.columns[0].holds(starts),
            self.columns[1].holds(ends),
            blanked.holds(&wanted.blanked),
            left.holds(&wanted.left),
            fillers.holds(&wanted.fillers),
        ]
    }
}

/// A note and pairs in the rooms that belong to the result's sizes.
fn redact_all(
    tally: &mut Tally,
    note: &Note,
    words: &Words,
    rooms: impl FnOnce(Rooms) -> Vec<Rooms>,
    made: impl Fn() -> String,
) {
    let result = expected(note, words);
    let nothing = Redacted::default();
    let pairs = words.sizes.len() / 2 + 1;
    let sizes = match &result {
        Ok(result) => result.sizes(),
        Err(NO_ROOM) => [LIMIT + 9, LIMIT + 9, LIMIT + 9, pairs, pairs, pairs],
        Err(_) => [note.normalized.len().min(300) + 9; 6],
    };
    for room in rooms(sizes) {
        let (wanted, theirs) = match &result {
            Err(refusal) => (&nothing, Redactions { refusal: *refusal, ..Redactions::default() }),
            Ok(_) if room.iter().zip(sizes).any(|(&room, size)| room < size) => {
                (&nothing, Redactions { refusal: NO_ROOM, ..Redactions::default() })
            }
            Ok(result) => (result, result.answer()),
        };
        let mut buffers = Buffers::new(room);
        let ours = buffers.redact_all(note, words);
        let held = buffers.hold(wanted);
        tally.case(tally::refusal(ours.refusal), ours != theirs || held != [true; 6], || {
            let (bytes, sizes, made) = (hex(&words.bytes), &words.sizes[..words.sizes.len().min(20)], made());
            format!(
                "ours {ours:?}, theirs {theirs:?}, buffers equal {held:?}, in rooms {room:?}, {made}: words {bytes}, \
                 {} sizes {sizes:?}, {note}",
                words.sizes.len()
            )
        });
    }
}

pub fn plainly(tally: &mut Tally, note: &Note, pairs: &[Pair], rooms: impl FnOnce(Rooms) -> Vec<Rooms>) {
    redact_all(tally, note, &Words::of_pairs(pairs), rooms, || "whole".into());
}

fn fresh(text: &str) -> Note {
    Note::from(&NormalizedString::from(text))
}

/// Just large enough, or larger.
fn ample(sizes: Rooms) -> Vec<Rooms> {
    vec![[sizes[0], sizes[1] + 1, sizes[2] + 2, sizes[3], sizes[4] + 1, sizes[5] + 2]]
}

pub fn ample_or_none(sizes: Rooms) -> Vec<Rooms> {
    vec![sizes, [0; 6]]
}

/// Just large enough, ample, and short by one in each in turn.
fn rooms(sizes: Rooms) -> Vec<Rooms> {
    let short = |i: usize| {
        let mut room = sizes;
        room[i] = sizes[i].saturating_sub(1);
        room
    };
    [sizes, sizes.map(|size| size + 100)].into_iter().chain((0..6).map(short)).collect()
}

/// Text, pairs; what is published, blanked, left, fillers.
type Worked<'a> = (&'a str, &'a [Pair<'a>], &'a str, &'a [u32], &'a [u32], &'a [u32]);

/// The answers are written down here, and both sides give them.
fn worked_notes(tally: &mut Tally) {
    tally.family("worked lists: empty ones, misspelt ones, literals that come back or stay, fillers in the note");
    let worked: [Worked; 16] = [
        ("José, nest 12", &[["José", "[f]"], ["nest 12", "[n]"]], "[f], [n]", &[1, 1], &[0, 0], &[0, 0]),
        ("José, nest 12", &[["Jose", "[f]"], ["nest 12", "[n]"]], "José, [n]", &[0, 1], &[0, 0], &[0, 0]),
        ("a", &[], "a", &[], &[], &[]),
        ("", &[], "", &[], &[], &[]),
        ("", &[["a", "b"]], "", &[0], &[0], &[0]),
        ("aé", &[["", "x"], ["é", ""]], "a", &[0, 1], &[0, 0], &[0, 0]),
        ("aé", &[["", ""]], "aé", &[0], &[0], &[0]),
        ("aab", &[["ab", "b"]], "ab", &[1], &[1], &[1]),
        ("aaabb", &[["ab", ""]], "aab", &[1], &[1], &[0]),
        ("aaabb", &[["ab", ""], ["ab", ""]], "a", &[1, 1], &[0, 0], &[0, 0]),
        ("Ann c", &[["Ann", "x"], ["c", "Ann"]], "x Ann", &[1, 1], &[1, 0], &[0, 1]),
        ("a b", &[["a", "x"], ["a", "y"]], "x b", &[1, 0], &[0, 0], &[0, 0]),
        ("anana", &[["ana", "x"]], "xna", &[1], &[0], &[0]),
        ("Anna and Ann", &[["Anna", "[1]"], ["Ann", "[2]"]], "[1] and [2]", &[1, 1], &[0, 0], &[0, 0]),
        ("Anna and Ann", &[["Ann", "[2]"], ["Anna", "[1]"]], "[2]a and [2]", &[2, 0], &[0, 0], &[0, 0]),
        ("José nest", &[["José", "nest"], ["nest", "José"]], "José José", &[1, 2], &[2, 0], &[1, 1]),
    ];
    for (text, pairs, published, blanked, left, fillers) in worked {
        let note = fresh(text);
        plainly(tally, &note, pairs, rooms);
        let theirs = redacted(&note, pairs).expect("a worked note is accepted");
        let differs = theirs.note.normalized != published.as_bytes()
            || [&theirs.blanked[..], &theirs.left, &theirs.fillers] != [blanked, left, fillers];
        tally.case("accepted", differs, || {
            let Redacted { note, blanked, left, fillers } = &theirs;
            format!("{pairs:?} in {text}: theirs {blanked:?}, {left:?}, {fillers:?}, {note}")
        });
    }
}

fn every_two_pairs(tally: &mut Tally) {
    tally.family("every text of up to 3 characters out of a, b and é, two literals of up to 1, six fillers and five");
    for text in every::strings(3) {
        let note = fresh(&text);
        for first in every::strings(1) {
            for second in every::strings(1) {
                for one in FILLERS.iter().chain(&["a"]) {
                    for other in ["", "a", "bé", "**", "é"] {
                        plainly(tally, &note, &[[&first, one], [&second, other]], ample);
                    }
                }
            }
        }
    }
}

fn every_note(tally: &mut Tally) {
    tally.family("every sound note of up to 3 bytes, three literals of up to 1 character, one filler each");
    for text in ["", "a", "é", "ab", "aé", "aa", "éa"] {
        for note in ["", "q", "ů"].iter().flat_map(|transcript| sound_notes(transcript, text)) {
            for literals in every::list(&["", "a", "é"], 3) {
                plainly(tally, &note, &[[literals[0], "é"], [literals[1], ""], [literals[2], "aa"]], ample);
            }
        }
    }
}

fn every_room(tally: &mut Tally) {
    tally.family("no pair, one and two in every six rooms about the sizes");
    let pairs = [["é", "x"], ["a", "bé"]];
    for text in ["", "é", "aé"] {
        for pairs in [&pairs[..0], &pairs[..1], &pairs] {
            plainly(tally, &fresh(text), pairs, |sizes| {
                let about = |size: usize| [size.saturating_sub(1), size, size + 1];
                every::list(&[0, 1, 2], 6)
                    .map(|choice| [0, 1, 2, 3, 4, 5].map(|i| about(sizes[i])[choice[i]]))
                    .collect()
            });
        }
    }
}

/// Literals out of the text, out of fillers, or none; fillers out of a few, out of the text, or an earlier literal.
fn some_pairs(text: &str, most: usize, random: &mut Random) -> Vec<[String; 2]> {
    let mut pairs: Vec<[String; 2]> = vec![];
    for _ in 0..random.below(most + 1) {
        let literal = match random.below(8) {
            0 => FILLERS[random.below(FILLERS.len())].to_owned(),
            1 => "x".to_owned(),
            _ => literal_of(text, random),
        };
        let filler = match random.below(8) {
            0 => literal_of(text, random),
            1 if !pairs.is_empty() => random.choose(&pairs)[0].clone(),
            _ => FILLERS[random.below(FILLERS.len())].to_owned(),
        };
        pairs.push([literal, filler]);
    }
    pairs
}

fn borrowed(pairs: &[[String; 2]]) -> Vec<Pair<'_>> {
    pairs.iter().map(|[literal, filler]| [literal.as_str(), filler]).collect()
}

fn any_pairs(tally: &mut Tally) {
    tally.family("notes of any make to 300 bytes, up to 6 pairs of any make, short in each buffer in turn");
    let mut random = Random::new(71);
    for _ in 0..5_000 {
        let len = random.below(300);
        let note = samples::any(len, &mut random);
        let pairs = some_pairs(note.get(), 6, &mut random);
        plainly(tally, &Note::from(&note), &borrowed(&pairs), rooms);
    }
}

fn long_notes(tally: &mut Tally) {
    tally.family("notes of any make up to the limit, up to 10 pairs of any make, short in each buffer in turn");
    let mut random = Random::new(72);
    for turn in 0..120 {
        let len = samples::long_len(turn, 3, &mut random);
        let note = samples::any(len, &mut random);
        let pairs = some_pairs(note.get(), 10, &mut random);
        plainly(tally, &Note::from(&note), &borrowed(&pairs), rooms);
    }
}

fn many_pairs(tally: &mut Tally) {
    tally.family("up to 65535 pairs, and more; an odd number of sizes past that");
    let note = fresh("ab");
    let pairs = |pairs: usize| {
        let turn = |i: usize| [["a", "b"], ["é", "x"], ["b", "a"]][i % 3];
        Words::of_pairs(&(0..pairs).map(turn).collect::<Vec<Pair>>())
    };
    let mut try_rooms = |words: &Words, less: usize| {
        let rooms = |sizes: Rooms| {
            let [len, _, _, pairs, ..] = sizes;
            vec![[len, len, len, pairs, pairs, pairs - less]]
        };
        redact_all(tally, &note, words, rooms, || "many".into());
    };
    for number in [100, 1_000, LIMIT, LIMIT + 1, LIMIT + 2, 2 * LIMIT, 1 << 20] {
        try_rooms(&pairs(number), 0);
    }
    try_rooms(&pairs(LIMIT), 1);
    let most = pairs(LIMIT);
    for more in [vec![0], vec![0, 0], vec![9], vec![0, 9]] {
        let words = Words { bytes: most.bytes.clone(), sizes: [&most.sizes[..], &more].concat() };
        try_rooms(&words, 0);
    }
    let torn = Words { bytes: [&most.bytes[..], b"\xFF"].concat(), sizes: [&most.sizes[..], &[1, 0]].concat() };
    try_rooms(&torn, 0);
}

fn around_the_limit(tally: &mut Tally) {
    tally.family("steps about the limit, the first or the last of them, and far past it; texts about the limit");
    for len in LIMIT - 2..=LIMIT + 2 {
        let mut note = samples::uniform(9, len, (3, 7));
        for filler in ["", "x", "xy", &"x".repeat(70_000)] {
            plainly(tally, &note, &[["n", filler]], rooms);
            plainly(tally, &note, &[["b", filler], ["n", ""]], rooms);
            plainly(tally, &note, &[["nn", filler], ["x", ""]], rooms);
        }
        note.normalized.truncate(len - 4);
        note.starts.truncate(len - 4);
        note.ends.truncate(len - 4);
        note.normalized[100] = b'z';
        for longer in 0..5 {
            let filler = &"12345678"[..4 + longer];
            plainly(tally, &note, &[["z", filler]], rooms);
            plainly(tally, &note, &[["z", filler], ["n", ""]], rooms);
            plainly(tally, &note, &[["z", filler], ["1", ""], ["2", "22"], ["n", "é"]], ample_or_none);
            plainly(tally, &note, &[["é", "x"], ["z", filler], ["n", ""], ["é", ""]], ample_or_none);
        }
    }
}

fn sizes_that_do_not_fit(tally: &mut Tally) {
    tally.family("every list of up to 4 sizes of 0 to 3, beside words of up to 4 bytes; sums past 16 and 32 bits");
    let note = fresh("aéb");
    for bytes in [&b""[..], b"a", b"ab", "aé".as_bytes(), "éa".as_bytes(), "éé".as_bytes(), b"abab", b"ab\xFFa"] {
        for sizes in (0..=4).flat_map(|len| every::list(&[0, 1, 2, 3], len)) {
            redact_all(tally, &note, &Words { bytes: bytes.to_vec(), sizes }, ample_or_none, || "sizes".into());
        }
    }
    let max = u32::MAX;
    let lists: [&[u32]; 9] = [
        &[max, 0],
        &[max, 1],
        &[max, 3],
        &[3, max],
        &[max, max],
        &[1 << 31, 1 << 31, 1, 1],
        &[max, 1, 1, 1],
        &[1 << 16, 2],
        &[2, 1 << 16],
    ];
    for sizes in lists {
        let words = Words { bytes: b"ab".to_vec(), sizes: sizes.to_vec() };
        redact_all(tally, &note, &words, ample_or_none, || "large sizes".into());
    }
    // Literals and fillers past the limit are taken.
    for len in [LIMIT, LIMIT + 1, 200_000] {
        let long = "a".repeat(len);
        plainly(tally, &note, &[[&long, "x"]], rooms);
        plainly(tally, &note, &[["x", &long]], rooms);
        plainly(tally, &note, &[["a", &long]], rooms);
        plainly(tally, &note, &[["a", &long], [&long, ""]], rooms);
    }
}

fn ill_formed_words(tally: &mut Tally) {
    tally.family("a character, or a wrong or cut one, in each word of two pairs, alone and in two words at once");
    let note = fresh("aéb");
    for sequence in sequences() {
        for at in 0..4 {
            for before in [0, 1, 70] {
                let torn = [&b"a".repeat(before), &sequence[..], b"a"].concat();
                let mut words: [&[u8]; 4] = [b"a", b"x", "é".as_bytes(), b""];
                words[at] = &torn;
                redact_all(tally, &note, &Words::of(&words), ample_or_none, || "in a word".into());
            }
        }
        // The bytes are whole, and the sizes cut them in two: at the end of a word, of a pair.
        for at in 0..=sequence.len() {
            let (head, tail) = sequence.split_at(at);
            redact_all(tally, &note, &Words::of(&[head, tail]), ample, || "cut".into());
            redact_all(tally, &note, &Words::of(&[b"a", head, tail, b"x"]), ample, || "cut".into());
        }
    }
}

fn every_set_of_faults(tally: &mut Tally) {
    tally.family("every set of faults out of nine of the note, six of the pairs, and of each short room");
    let whole = Words::of_pairs(&[["é", "**"], ["a", ""]]);
    let mut odd = whole.clone();
    odd.sizes.push(0);
    let mut short = whole.clone();
    short.bytes.pop();
    let torn = Words::of(&[b"\xC3\xA9", b"**", b"\xC3", b""]);
    let torn_and_short = Words { bytes: torn.bytes.clone(), sizes: [&torn.sizes[..], &[7, 0]].concat() };
    let many = Words { bytes: vec![], sizes: vec![0; 2 * LIMIT + 1] };
    for (set, note) in notes::with_faults() {
        for words in [&whole, &odd, &short, &torn, &torn_and_short, &many] {
            redact_all(tally, &note, words, ample_or_none, || format!("faults {set:09b}"));
        }
        redact_all(tally, &note, &whole, rooms, || format!("faults {set:09b}"));
    }
}

fn damaged_notes(tally: &mut Tally) {
    tally.family("notes of any make, with every damage, beside pairs that are whole or not");
    let mut random = Random::new(73);
    for turn in 0..200 {
        let len = 1 + random.below([10, 40, 300][turn % 3]);
        let note = samples::any(len, &mut random);
        let words = Words::of_pairs(&borrowed(&some_pairs(note.get(), 3, &mut random)));
        let note = Note::from(&note);
        let mut odd = words.clone();
        odd.sizes.push(0);
        let mut torn = words.clone();
        torn.bytes.push(0xFF);
        torn.sizes.extend([0, 1]);
        let mut beside = |note: &Note, made: &str| {
            for words in [&words, &odd, &torn] {
                redact_all(tally, note, words, ample_or_none, || made.into());
            }
        };
        for (name, damaged) in samples::damaged(&note) {
            beside(&damaged, name);
        }
        if !note.normalized.is_empty() {
            let at = random.below(note.normalized.len());
            for (name, damaged) in samples::damaged_at(&note, at) {
                beside(&damaged, name);
            }
        }
    }
}

fn nothing_anywhere(tally: &mut Tally) {
    tally.family("nothing passed, at any pointer");
    for address in ADDRESSES {
        let (text, column, sizes) = (address as *const u8, address as *const Offset, address as *const u32);
        let (out, written, counts) = (address as *mut u8, address as *mut Offset, address as *mut u32);
        let ours = unsafe {
            library::zulmyren_redact_all(
                text, 0, text, 0, column, 0, column, 0, 0, text, 0, sizes, 0, out, 0, written, 0, written, 0, counts,
                0, counts, 0, counts, 0,
            )
        };
        let differs = ours != Redactions::default();
        tally.case(tally::refusal(ours.refusal), differs, || format!("ours {ours:?} at {address:#x}"));
    }
}

/// What our own call for one literal leaves, pair by pair, and how often it blanks; or its refusal.
fn stepped(note: &Note, pairs: &[Pair]) -> Result<(Note, Vec<u32>), u32> {
    let (mut note, mut blanked) = (note.clone(), vec![]);
    for [literal, filler] in pairs {
        let (mut text, mut starts, mut ends) = (vec![0; LIMIT], vec![0; LIMIT], vec![0; LIMIT]);
        let out = Publishing { text: &mut text, starts: &mut starts, ends: &mut ends };
        let mut list = vec![0; 5 * (2 * note.normalized.len() + 1)];
        let answer = library::redact_note(&note, literal.as_bytes(), filler.as_bytes(), &mut list, out);
        if answer.refusal > 0 {
            return Err(answer.refusal);
        }
        text.truncate(answer.len);
        starts.truncate(answer.len);
        ends.truncate(answer.len);
        note = Note { normalized: text, starts, ends, ..note };
        blanked.push(answer.matches as u32);
    }
    Ok((note, blanked))
}

fn one_by_one(tally: &mut Tally) {
    tally.family("notes of any make to 400 bytes, up to 8 pairs of any make: the same is left, and blanked as often");
    let mut random = Random::new(74);
    for _ in 0..3_000 {
        let len = random.below(400);
        let note = samples::any(len, &mut random);
        let pairs = some_pairs(note.get(), 8, &mut random);
        let (note, pairs) = (Note::from(&note), borrowed(&pairs));
        let steps = stepped(&note, &pairs);
        let mut buffers = Buffers::new([LIMIT, LIMIT, LIMIT, 8, 8, 8]);
        let ours = buffers.redact_all(&note, &Words::of_pairs(&pairs));
        let differs = match &steps {
            Err(refusal) => ours != Redactions { refusal: *refusal, ..Redactions::default() },
            Ok((left, blanked)) => {
                ours.refusal > 0
                    || ours.len != left.normalized.len()
                    || !buffers.text.holds(&left.normalized)
                    || !buffers.columns[0].holds(&left.starts)
                    || !buffers.columns[1].holds(&left.ends)
                    || !buffers.counts[0].holds(blanked)
            }
        };
        tally.case(tally::refusal(ours.refusal), differs, || format!("ours {ours:?}, {pairs:?} in {note}"));
    }
}

//! The runs of docs/OFFICE-RUNS.md, by their numbers there. The statuses of the program are no part of it.

use super::{code_answers, splits_here};
use crate::edits::{bytes, Edit};
use crate::library::{self, Comparison, Offsets};
use crate::made;
use crate::note::{Note, Offset};
use crate::places::{self, Place};
use crate::refusals::{MISSING, NOT_BOUNDARY};
use crate::tally::Tally;
use crate::texts::LIMIT;
use std::str::from_utf8;
use tokenizers::normalizer::Range::{self, Normalized, Original};
use tokenizers::normalizer::SplitDelimiterBehavior::Removed;
use tokenizers::{NormalizedString, Offsets as Numbers};

pub fn compare(tally: &mut Tally) {
    tally.family("positions: runs P1 to P9");
    letters(tally);
    split_offsets(tally);
    converted(tally);
    no_slice(tally);
    tally.family("blanking: runs B1 to B27");
    blanking(tally);
    blanked_alike(tally);
    two_notes(tally);
    tally.family("edited notes: runs E1 to E15");
    edited_before(tally);
    compared_after_edits(tally);
    left_by_edits(tally);
    edited_after(tally);
    empty_place(tally);
    found_in_small_letters(tally);
}

fn fresh(text: &str) -> Note {
    Note::from(&NormalizedString::from(text))
}

/// The literal's match list in a text, as this library finds it.
fn found(text: &[u8], literal: &str) -> Vec<u8> {
    let mut list = vec![0; 5 * (2 * text.len() + 1)];
    assert_eq!(library::find_matches(text, literal.as_bytes(), &mut list).refusal, 0, "{literal}");
    let commands = list.chunks(5).take_while(|command| command[0] > 0).count();
    list.truncate(5 * commands);
    list
}

/// One literal blanked in a note.
fn blanked(note: &Note, literal: &str, filler: &str) -> Note {
    let places = places::read(&found(&note.normalized, literal)).expect("a list that was written");
    made::replaced(note, &places, filler).expect("the list covers")
}

/// Run P1: bytes and letters.
fn letters(tally: &mut Tally) {
    let texts = [("é", 2, 1), ("e\u{301}", 3, 2), ("\r\n", 2, 2), ("José Álvarez", 14, 12), ("Zoë Brown", 10, 9)];
    for (text, bytes, letters) in texts {
        let answer = library::letter_count(text.as_bytes(), 0, text.len() as u32).count;
        code_answers(tally, text, (bytes, letters), (text.len(), answer));
    }
}

const BYTES_OF_TRANSCRIPT: [bool; 2] = [true, false];
const LETTERS_OF_TRANSCRIPT: [bool; 2] = [true, true];
const BYTES_OF_TEXT: [bool; 2] = [false, false];
const LETTERS_OF_TEXT: [bool; 2] = [false, true];

/// Runs P2 to P6: the pieces that a literal leaves.
fn split_offsets(tally: &mut Tally) {
    let note = fresh("José rings a bird");
    let hidden = blanked(&note, "José", "[f]");
    let slice = made::sliced(&note, Normalized(6..18)).expect("both ends are boundaries");
    let in_bytes = [(6, 11), (12, 13), (14, 18)];
    let in_letters = [(5, 10), (11, 12), (13, 17)];
    let with = |first: Numbers, others: [Numbers; 3]| [&[first][..], &others].concat();
    let runs: [(&Note, &str, [bool; 2], Vec<Numbers>); 11] = [
        (&note, " ", BYTES_OF_TRANSCRIPT, with((0, 5), in_bytes)),
        (&note, " ", LETTERS_OF_TRANSCRIPT, with((0, 4), in_letters)),
        (&hidden, " ", BYTES_OF_TRANSCRIPT, with((3, 5), in_bytes)),
        (&hidden, " ", LETTERS_OF_TRANSCRIPT, with((3, 4), in_letters)),
        (&hidden, " ", BYTES_OF_TEXT, vec![(0, 3), (3, 8), (8, 9), (9, 13)]),
        (&hidden, " ", LETTERS_OF_TEXT, vec![(0, 3), (3, 7), (7, 8), (8, 12)]),
        (&fresh("éabc"), "é", LETTERS_OF_TEXT, vec![(0, 2)]),
        (&fresh("a-b"), "-", BYTES_OF_TRANSCRIPT, vec![(0, 1), (2, 3)]),
        (&fresh("a-b"), "-", BYTES_OF_TEXT, vec![(0, 1), (1, 2)]),
        (&slice, " ", BYTES_OF_TRANSCRIPT, in_bytes.to_vec()),
        (&slice, " ", LETTERS_OF_TRANSCRIPT, in_bytes.to_vec()),
    ];
    for (note, literal, way, said) in runs {
        let answer = splits_here(note, &found(&note.normalized, literal), Removed, way);
        code_answers(tally, literal, Ok(said), answer);
    }
    code_answers(tally, "the slice", (&b"rings a bird"[..], 6), (&slice.normalized[..], slice.original_shift));
}

/// Runs P7 and P8.
fn converted(tally: &mut Tally) {
    let note = fresh("aéb");
    for (of_original, asked, said) in [
        (true, (1, 2), (1, 1)),
        (true, (0, 9), (0, 4)),
        (true, (900, 900), (900, 900)),
        (false, (900, 900), (900, 900)),
    ] {
        let answer = library::convert_offsets(&note, of_original, asked.0, asked.1);
        code_answers(tally, "aéb", Offsets::of(Some(said)), answer);
    }
    for (asked, said) in [((0, 3), Some((0, 3))), ((0, 10), Some((0, 2))), ((2, 10), Some((2, 4))), ((3, 3), None)] {
        code_answers(tally, "abc", Offsets::of(said), library::char_offsets(b"abc", asked.0, asked.1));
    }
}

/// Run P9.
fn no_slice(tally: &mut Tally) {
    let note = fresh("aéb");
    let hidden = blanked(&fresh("ab x"), "ab", "#");
    let short = edited(&fresh("abc"), &Edit::Filter(vec![1, 0, 0]));
    let reversed = |start, end| std::ops::Range { start, end };
    let asked: [(&Note, Range<_>, u32); 7] = [
        (&note, Normalized(reversed(3, 1)), MISSING),
        (&note, Original(reversed(3, 1)), MISSING),
        (&note, Normalized(reversed(2, 1)), NOT_BOUNDARY),
        (&note, Normalized(0..9), NOT_BOUNDARY),
        (&note, Original(0..9), NOT_BOUNDARY),
        (&hidden, Original(0..1), MISSING),
        (&short, Original(2..2), MISSING),
    ];
    for (note, range, said) in asked {
        let input = format!("{range:?}");
        code_answers(tally, &input, Some(said), made::sliced(note, range).err());
    }
}

/// Literals, each with its filler.
type Pairs<'a> = &'a [(&'a str, &'a str)];

/// What several literals leave of a fresh text, and whether the program would write nothing: a literal is not found or
/// can still be read, or a filler was in the text.
fn redacted(text: &str, pairs: Pairs) -> (Note, bool) {
    let (mut note, mut stopped) = (fresh(text), false);
    for (literal, filler) in pairs {
        stopped |= !from_utf8(&note.normalized).expect("a published text").contains(literal);
        stopped |= !filler.is_empty() && text.contains(filler);
        note = blanked(&note, literal, filler);
    }
    let published = from_utf8(&note.normalized).expect("a published text");
    let left = pairs.iter().any(|(literal, _)| published.contains(literal));
    (note, stopped | left)
}

/// The alignments as `redact` writes them, but with spaces.
fn lines(note: &Note) -> Vec<String> {
    let alignments: Vec<(Offset, Offset)> = note.alignments().collect();
    let mut at = 0;
    let line = |run: &[(Offset, Offset)]| {
        let (first, (start, end)) = (at, run[0]);
        at += run.len();
        format!("{first} {} {start} {end}", run.len())
    };
    alignments.chunk_by(|one, next| one == next).map(line).collect()
}

/// Whether these are among the lines.
fn shows(note: &Note, shown: &[&str]) -> bool {
    let written = lines(note);
    shown.iter().all(|line| written.iter().any(|other| other == line))
}

/// The text, the lines that are shown, and whether the program writes nothing.
fn blanking(tally: &mut Tally) {
    type Run<'a> = (&'a str, Pairs<'a>, &'a str, &'a [&'a str], bool);
    let runs: [Run; 39] = [
        ("nest 12", &[("12", "**")], "nest **", &["5 2 6 7"], false),
        ("nest 4711", &[("4711", "**")], "nest **", &["5 2 8 9"], false),
        ("cafe x", &[("cafe", "#")], "# x", &["0 1 3 4"], false),
        ("café x", &[("café", "#")], "# x", &["0 1 3 5"], false),
        ("漢 x", &[("漢", "#")], "# x", &["0 1 0 3"], false),
        ("cafe x", &[("cafe", "")], " x", &["0 1 4 5"], false),
        ("café x", &[("café", "")], " x", &["0 1 5 6"], false),
        ("12", &[("12", "**")], "**", &["0 2 1 2"], false),
        ("123", &[("123", "**")], "**", &["0 2 2 3"], false),
        ("é x", &[("é", "#")], "# x", &["0 1 0 2"], false),
        ("ab x", &[("ab", "#")], "# x", &["0 1 1 2"], false),
        ("a1", &[("1", "*")], "a*", &["0 1 0 1", "1 1 1 2"], false),
        ("a1212b", &[("12", "")], "ab", &["0 1 0 1", "1 1 5 6"], false),
        ("a12", &[("12", "")], "a", &["0 1 0 1"], false),
        ("JOSÉ, José, jose", &[("José", "#")], "JOSÉ, #, jose", &[], false),
        ("Jose\u{301} José", &[("José", "#")], "Jose\u{301} #", &[], false),
        ("José\nÁlvarez", &[("José Álvarez", "#")], "José\nÁlvarez", &[], true),
        ("José  Álvarez", &[("José Álvarez", "#")], "José  Álvarez", &[], true),
        ("Jo\u{ad}sé José", &[("José", "#")], "Jo\u{ad}sé #", &[], false),
        ("Anna and Ann", &[("Ann", "[finder]")], "[finder]a and [finder]", &[], false),
        ("anana", &[("ana", "#")], "#na", &[], false),
        ("aabb", &[("ab", "")], "ab", &[], true),
        ("aab", &[("ab", "b")], "ab", &[], true),
        ("Joxsé", &[("x", "")], "José", &[], false),
        ("nest 12", &[("21", "**")], "nest 12", &[], true),
        ("José Álvarez nest 12", &[("José", "Álvarez"), ("nest", "12")], "Álvarez Álvarez 12 12", &[], true),
        ("JOSÉ and José", &[("JOSÉ", "[f]"), ("José", "[f]")], "[f] and [f]", &["8 3 13 15"], false),
        ("a b", &[("a", "#"), ("b", "a")], "# a", &[], true),
        ("José Álvarez, José", &[("José Álvarez", "#"), ("José", "#")], "#, #", &[], false),
        ("José Álvarez, José", &[("José", "#"), ("José Álvarez", "#")], "# Álvarez, #", &[], true),
        ("x12y", &[("12", ""), ("xy", "#")], "#", &["0 1 3 4"], false),
        ("a1-2b", &[("-", ""), ("12", "")], "ab", &["0 1 0 1", "1 1 4 5"], false),
        ("finder José Álvarez", &[("José Álvarez", "[f]")], "finder [f]", &["7 3 20 21"], false),
        ("finder Zoë Brown", &[("Zoë Brown", "[f]")], "finder [f]", &["7 3 16 17"], false),
        ("a1b", &[("1", "")], "ab", &["1 1 2 3"], false),
        ("aéb", &[("é", "")], "ab", &["1 1 3 4"], false),
        ("a12b", &[("12", "")], "ab", &["1 1 3 4"], false),
        ("a1212b", &[("1212", "")], "ab", &["0 1 0 1", "1 1 5 6"], false),
        ("nest 47", &[("47", "**")], "nest **", &["5 2 6 7"], false),
    ];
    for (text, pairs, published, shown, stopped) in runs {
        let (note, stops) = redacted(text, pairs);
        code_answers(tally, text, (published.as_bytes(), stopped), (&note.normalized[..], stops));
        code_answers(tally, text, (shown, true), (shown, shows(&note, shown)));
    }
}

/// Runs B1, B6 to B9: the same text and the same lines.
fn blanked_alike(tally: &mut Tally) {
    type Run<'a> = (&'a str, Pairs<'a>);
    let runs: [[Run; 2]; 5] = [
        [("nest 12", &[("12", "**")]), ("nest 47", &[("47", "**")])],
        [("é x", &[("é", "")]), ("ab x", &[("ab", "")])],
        [("a1", &[("1", "*")]), ("a*", &[])],
        [("a1212b", &[("12", "")]), ("a1212b", &[("1212", "")])],
        [("a12", &[("12", "")]), ("a", &[])],
    ];
    for [one, other] in runs {
        let [one, other] = [one, other].map(|(text, pairs)| redacted(text, pairs).0);
        code_answers(tally, "published alike", (&one.normalized, lines(&one)), (&other.normalized, lines(&other)));
    }
}

/// The text and the alignments that are published.
fn published(
    tally: &mut Tally,
    note: &Note,
    places: &[Place],
    filler: &str,
    said: (&str, &[Offset], &[Offset]),
) -> Note {
    let published = made::replaced(note, places, filler).expect("the list covers");
    let Note { normalized, starts, ends, .. } = &published;
    let answer = (normalized.as_slice(), starts.as_slice(), ends.as_slice());
    code_answers(tally, said.0, (said.0.as_bytes(), said.1, said.2), answer);
    published
}

/// Run E11.
fn empty_place(tally: &mut Tally) {
    let places = [((0, 1), false), ((1, 1), true), ((1, 2), false)];
    published(tally, &fresh("ab"), &places, "-", ("a-b", &[0, 0, 1], &[1, 1, 2]));
    let places = [((0, 0), true), ((0, 2), false)];
    published(tally, &fresh("ab"), &places, "-", ("-ab", &[0, 0, 1], &[0, 1, 2]));
}

/// Runs E14 and E15: matches in the copy in small letters, where they are in the transcript, and what is published.
fn found_in_small_letters(tally: &mut Tally) {
    type Run<'a> = (&'a str, &'a str, &'a [(Numbers, &'a str)], &'a str, &'a [&'a str]);
    let dotted: &[&str] = &["0 1 8 9", "1 1 9 10", "2 1 10 11"];
    let runs: [Run; 3] = [
        ("JOSÉ, José, jose", "josé", &[((0, 5), "JOSÉ"), ((7, 12), "José")], "#, #, jose", &["0 1 3 5", "3 1 10 12"]),
        ("İĞNEADA x", "i\u{307}ğneada", &[((0, 10), "İĞNEADA")], "# x", dotted),
        ("İĞNEADA x", "iğneada", &[], "i\u{307}ğneada x", &[]),
    ];
    for (text, literal, matches, published, shown) in runs {
        let note = lowercased(text);
        let places = places::read(&found(&note.normalized, literal)).expect("a list that was written");
        let matched = places.into_iter().filter(|&(_, matched)| matched).map(|(place, _)| {
            let Offsets { start, end, .. } = library::convert_offsets(&note, false, place.0 as u32, place.1 as u32);
            (place, &text[start as usize..end as usize])
        });
        code_answers(tally, text, matches, &matched.collect::<Vec<_>>());
        let hidden = blanked(&note, literal, "#");
        let answer = (&hidden.normalized[..], shown, shows(&hidden, shown));
        code_answers(tally, text, (published.as_bytes(), shown, true), answer);
    }
}

/// Run B6: two notes of one's own.
fn two_notes(tally: &mut Tally) {
    let (one, other, list) = (fresh("é x"), fresh("ab x"), places::bytes(&[((0, 2), true), ((2, 4), false)]));
    for (filler, alike) in [("#", false), ("", true)] {
        let answer = library::published_alike(&one, &other, &list, filler.as_bytes());
        code_answers(tally, "é x and ab x", Comparison { refusal: 0, alike }, answer);
    }
}

/// The note that an edit leaves.
fn edited(note: &Note, edit: &Edit) -> Note {
    let (answer, left) = edit.answer(note, LIMIT);
    assert_eq!(answer.refusal, 0, "{edit:?}");
    left
}

/// `map` of each letter by this one's counterpart.
fn mapped(text: &str, new: fn(char) -> char) -> Note {
    edited(&fresh(text), &Edit::Map(text.chars().map(|letter| new(letter).into()).collect()))
}

fn without_accent(letter: char) -> char {
    if letter == 'é' {
        'e'
    } else {
        letter
    }
}

/// A part of the cleaned text taken out by an empty script.
fn without(text: &str, start: u32, end: u32) -> Note {
    edited(&fresh(text), &Edit::TransformRange((false, start, end), vec![], 0))
}

/// The note in small letters.
fn lowercased(text: &str) -> Note {
    edited(&fresh(text), &Edit::Lowercase)
}

/// Runs E1 to E8, E12 and E13: an edited note, what it reads, the place that is blanked, the filler, and what is published.
fn edited_before(tally: &mut Tally) {
    let added = edited(&fresh("ab"), &Edit::TransformRange((false, 1, 1), bytes(&[('x', 1)]), 0));
    let put_before = |string: &str| edited(&fresh("ab"), &Edit::Prepend(string.into()));
    let put_after = |string: &str| edited(&fresh("ab"), &Edit::Append(string.into()));
    type Run<'a> = (Note, &'a str, (usize, usize), &'a str, (&'a str, &'a [Offset], &'a [Offset]));
    let after_removed = Edit::TransformRange((false, 1, 4), bytes(&[('b', -1), ('x', 1)]), 0);
    let runs: [Run; 20] = [
        (mapped("José x", without_accent), "Jose x", (0, 4), "#", ("# x", &[3, 5, 6], &[5, 6, 7])),
        (mapped("Jose x", without_accent), "Jose x", (0, 4), "#", ("# x", &[3, 4, 5], &[4, 5, 6])),
        (without("a12b", 1, 3), "ab", (1, 2), "#", ("a#", &[0, 3], &[1, 4])),
        (without("nest 4711", 7, 9), "nest 47", (5, 7), "*", ("nest *", &[0, 1, 2, 3, 4, 6], &[1, 2, 3, 4, 5, 7])),
        (fresh("nest 12"), "nest 12", (5, 7), "*", ("nest *", &[0, 1, 2, 3, 4, 6], &[1, 2, 3, 4, 5, 7])),
        (without("4711 x", 2, 4), "47 x", (0, 2), "*", ("* x", &[1, 4, 5], &[2, 5, 6])),
        (fresh("12 x"), "12 x", (0, 2), "*", ("* x", &[1, 2, 3], &[2, 3, 4])),
        (added, "axb", (1, 2), "#", ("a#b", &[0, 0, 1], &[1, 1, 2])),
        (fresh("axb"), "axb", (1, 2), "#", ("a#b", &[0, 1, 2], &[1, 2, 3])),
        (edited(&fresh("abé"), &after_removed), "abx", (2, 3), "#", ("ab#", &[0, 1, 2], &[1, 2, 4])),
        (put_before("Al "), "Al ab", (0, 2), "#", ("# ab", &[0, 0, 0, 1], &[1, 1, 1, 2])),
        (put_before("José "), "José ab", (0, 5), "#", ("# ab", &[0, 0, 0, 1], &[1, 1, 1, 2])),
        (put_after(" Al"), "ab Al", (3, 5), "#", ("ab #", &[0, 1, 1, 1], &[1, 2, 2, 2])),
        (put_after(" José"), "ab José", (3, 8), "#", ("ab #", &[0, 1, 1, 1], &[1, 2, 2, 2])),
        (mapped("12", |_| '漢'), "漢漢", (0, 6), "#", ("#", &[1], &[2])),
        (mapped("é漢", |_| '1'), "11", (0, 2), "#", ("#", &[2], &[5])),
        (lowercased("JOSÉ x"), "josé x", (0, 5), "#", ("# x", &[3, 5, 6], &[5, 6, 7])),
        (fresh("josé x"), "josé x", (0, 5), "#", ("# x", &[3, 5, 6], &[5, 6, 7])),
        (lowercased("İ x"), "i\u{307} x", (4, 5), "#", ("i\u{307} #", &[0, 0, 0, 2, 3], &[2, 2, 2, 3, 4])),
        (fresh("i\u{307} x"), "i\u{307} x", (4, 5), "#", ("i\u{307} #", &[0, 1, 1, 3, 4], &[1, 3, 3, 4, 5])),
    ];
    for (note, reads, place, filler, said) in runs {
        code_answers(tally, reads, reads.as_bytes(), &note.normalized);
        published(tally, &note, &[((0, place.0), false), (place, true), ((place.1, reads.len()), false)], filler, said);
    }
}

/// Runs E1 and E3: whether two edited notes are published alike.
fn compared_after_edits(tally: &mut Tally) {
    let accent = (mapped("José x", without_accent), fresh("Jose x"), [((0, 4), true), ((4, 6), false)]);
    let removed = (without("nest 4711", 7, 9), fresh("nest 12"), [((0, 5), false), ((5, 7), true)]);
    let followed = (without("4711 x", 2, 4), fresh("12 x"), [((0, 2), true), ((2, 4), false)]);
    for ((one, other, places), alike) in [(accent, [false; 2]), (removed, [true; 2]), (followed, [false; 2])] {
        let list = places::bytes(&places);
        let answers = ["#", ""].map(|filler| library::published_alike(&one, &other, &list, filler.as_bytes()));
        code_answers(tally, "two edited notes", alike.map(|alike| Comparison { refusal: 0, alike }), answers);
    }
}

/// Run E9: edits that leave letters.
fn left_by_edits(tally: &mut Tally) {
    let moved = edited(&fresh("aé"), &Edit::Prepend(vec![]));
    code_answers(tally, "clear", &b"a"[..], &edited(&moved, &Edit::Clear).normalized[..]);
    code_answers(tally, "filter", &b"a"[..], &edited(&moved, &Edit::Filter(vec![0; 2])).normalized[..]);
}

/// Run E10: two notes with the same text and alignments, which one edit tells apart.
fn edited_after(tally: &mut Tally) {
    let b = Edit::Append(b"b".into());
    let notes = [edited(&fresh(""), &b), edited(&edited(&fresh("a"), &Edit::Clear), &b)];
    let list = places::bytes(&[((0, 1), false)]);
    let alike = library::published_alike(&notes[0], &notes[1], &list, b"#");
    code_answers(tally, "b and b", Comparison { refusal: 0, alike: true }, alike);
    let added = Edit::Transform(bytes(&[('x', 1)]), 0);
    let read = notes.map(|note| edited(&note, &added).normalized);
    code_answers(tally, "x added", [b"xb".to_vec(), b"bx".to_vec()], read);
}

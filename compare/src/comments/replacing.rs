//! What the comments of `replace` and of patterns say.

use super::{code_answers, note_of, panics};
use crate::library;
use crate::made;
use crate::note::Note;
use crate::places::{self, Given, Place};
use crate::refusals::BAD_MATCHES;
use crate::replace::{ample, plainly};
use crate::replace_by_edits::{edited, replace_by_edits, Order};
use crate::samples::{sound_notes, FILLERS};
use crate::tally::Tally;
use regex::Regex;
use tokenizers::pattern::{Invert, Pattern};
use tokenizers::{NormalizedString, Offsets};

pub fn compare(tally: &mut Tally) {
    as_transforming(tally);
    on_ranges_as_they_are(tally);
    alignment_of_the_last(tally);
    alignment_at_the_front(tally);
    characters_of_the_cleaned_text(tally);
    matches_that_stay(tally);
    lists_that_do_not_cover(tally);
    empty_literal(tally);
    expressions_on_the_empty_text(tally);
    inverted(tally);
}

fn replaced(note: &NormalizedString, pattern: impl Pattern, content: &str) -> NormalizedString {
    let mut note = note.clone();
    note.replace(pattern, content).expect("a literal is a regular expression");
    note
}

fn replaced_by(note: &NormalizedString, places: &[Place], content: &str) -> NormalizedString {
    replaced(note, Given(places.to_vec()), content)
}

type Fields<'a> = (&'a str, &'a [Offsets]);

fn fields(note: &NormalizedString) -> Fields<'_> {
    (note.get(), note.alignments())
}

/// One replacement, by the original and by this library.
fn replaces(tally: &mut Tally, note: &NormalizedString, places: &[Place], content: &str, said: Fields) {
    let input = format!("{places:?} by {content} in {note:?}");
    code_answers(tally, &input, said, fields(&replaced_by(note, places, content)));
    let ours = made::replaced(&Note::from(note), places, content).map(|note| note.of_the_original());
    code_answers(tally, &input, Ok(said), ours.as_ref().map(fields).map_err(|&refusal| refusal));
}

fn as_transforming(tally: &mut Tally) {
    tally.family("replace equals transform_range on each matched range, last first, or moved by what came before");
    for text in ["", "é", "aé", "éa", "aéb"] {
        let notes = ["", "ů", "qů"].iter().flat_map(|transcript| sound_notes(transcript, text));
        let notes: Vec<NormalizedString> = notes.map(|note| note.of_the_original()).collect();
        for places in places::every(text, 2) {
            for note in &notes {
                for filler in FILLERS {
                    let code = replaced_by(note, &places, filler);
                    for order in [Order::LastFirst, Order::FirstMoved] {
                        let said = edited(note, &places, filler, order);
                        code_answers(tally, &format!("{note:?}, {places:?}, {filler}"), fields(&said), fields(&code));
                    }
                }
            }
        }
    }
}

fn on_ranges_as_they_are(tally: &mut Tally) {
    tally.family("replace differs from transform_range on each matched range as it is, where a length changed before");
    let (note, places) = (NormalizedString::from("ab"), [((0, 1), true), ((1, 2), true)]);
    let replaced: Fields = ("****", &[(0, 1), (0, 1), (1, 2), (1, 2)]);
    replaces(tally, &note, &places, "**", replaced);
    plainly(tally, replace_by_edits, &Note::from(&note), &places, "**", ample);
    let unmoved: Fields = ("***b", &[(0, 1), (0, 1), (0, 1), (1, 2)]);
    for (order, said) in [(Order::LastFirst, replaced), (Order::FirstMoved, replaced), (Order::FirstUnmoved, unmoved)] {
        code_answers(tally, "ab by ranges", said, fields(&edited(&note, &places, "**", order)));
    }
}

fn alignment_of_the_last(tally: &mut Tally) {
    tally.family("an inserted character has the alignment of the last one under the match, not of the previous one");
    let places = [((0, 1), false), ((1, 2), true)];
    replaces(tally, &NormalizedString::from("ab"), &places, "x", ("ax", &[(0, 1), (1, 2)]));
    replaces(tally, &NormalizedString::from("abc"), &[((0, 3), true)], "xy", ("xy", &[(2, 3), (2, 3)]));
}

fn alignment_at_the_front(tally: &mut Tally) {
    tally.family("a character inserted at position 0 has none before it: it has (0,0)");
    let places = [((0, 0), true), ((0, 2), false)];
    replaces(tally, &NormalizedString::from("ab"), &places, "x", ("xab", &[(0, 0), (0, 1), (1, 2)]));
}

/// By this library too, with the list that it finds itself.
fn matches_that_stay(tally: &mut Tally) {
    tally.family("replace looks for matches once, from left to right: others stay, or come to be");
    for (text, literal, filler, said) in [("anana", "ana", "x", "xna"), ("aab", "ab", "b", "ab")] {
        let (note, input) = (NormalizedString::from(text), format!("{literal} by {filler} in {text}"));
        code_answers(tally, &input, said, replaced(&note, literal, filler).get());
        let mut list = vec![0; 100];
        let found = library::find_matches(text.as_bytes(), literal.as_bytes(), &mut list);
        let places = places::read(&list[..found.len]).expect("a whole list");
        let ours = made::replaced(&Note::from(&note), &places, filler).map(|note| note.normalized);
        code_answers(tally, &input, Ok(said.as_bytes().to_vec()), ours);
    }
}

/// Were they the transcript's, three bytes would be removed of a text of one.
fn characters_of_the_cleaned_text(tally: &mut Tally) {
    tally.family("the characters that replace retrieves are the cleaned text's, not the original's");
    replaces(tally, &note_of("漢", "a", &[(0, 3)]), &[((0, 1), true)], "x", ("x", &[(0, 3)]));
}

/// `find_matches` "*must* cover the whole string": `replace` reads matched places alone and keeps what lies between.
fn lists_that_do_not_cover(tally: &mut Tally) {
    tally.family("replace keeps the bytes that a pattern's places leave out, and reads no unmatched place");
    let lists: [(&[Place], Fields); 5] = [
        (&[((1, 2), true)], ("axc", &[(0, 1), (1, 2), (2, 3)])),
        (&[], ("abc", &[(0, 1), (1, 2), (2, 3)])),
        (&[((0, 99), false)], ("abc", &[(0, 1), (1, 2), (2, 3)])),
        (&[((2, 3), false), ((0, 1), true)], ("xbc", &[(0, 1), (1, 2), (2, 3)])),
        (&[((0, 1), true), ((2, 2), true)], ("xbxc", &[(0, 1), (1, 2), (1, 2), (2, 3)])),
    ];
    let note = NormalizedString::from("abc");
    for (places, said) in lists {
        let input = format!("abc, {places:?}");
        code_answers(tally, &input, said, fields(&replaced_by(&note, places, "x")));
        code_answers(tally, &input, Some(BAD_MATCHES), made::replaced(&Note::from(&note), places, "x").err());
    }
}

/// The place ends at the number of characters: it does not cover, and can end inside one.
fn empty_literal(tally: &mut Tally) {
    tally.family("find_matches of an empty literal gives one unmatched place that ends at the character count");
    for (text, characters) in [("", 0), ("a", 1), ("é", 1), ("aé漢😀", 4)] {
        let places = "".find_matches(text).expect("an empty literal is no regular expression");
        code_answers(tally, text, vec![((0, characters), false)], places);
        let mut ours = [0; 5];
        library::find_matches(text.as_bytes(), b"", &mut ours);
        code_answers(tally, text, places::bytes(&[((0, text.len()), false)]), ours.to_vec());
        code_answers(tally, text, text, replaced(&NormalizedString::from(text), "", "x").get());
    }
}

/// It matches no character or more, so it matches the empty text.
fn expressions_on_the_empty_text(tally: &mut Tally) {
    tally.family("find_matches of a regular expression: the empty text is unmatched, whatever the expression");
    let expression = Regex::new("a*").expect("a regular expression");
    for (text, said) in [("", vec![((0, 0), false)]), ("b", vec![((0, 0), true), ((0, 1), false), ((1, 1), true)])] {
        code_answers(tally, text, said, (&expression).find_matches(text).expect("an expression is found"));
    }
    for (text, said) in [("", ""), ("b", "xbx")] {
        code_answers(tally, text, said, replaced(&NormalizedString::from(text), &expression, "x").get());
    }
}

fn inverted(tally: &mut Tally) {
    tally.family("Invert makes a match of that place, up to the character count, and of the place of an empty text");
    for (text, said) in [("ab", "x"), ("éa", "xa"), ("", "x")] {
        code_answers(tally, text, said, replaced(&NormalizedString::from(text), Invert(""), "x").get());
    }
    for text in ["é", "aé"] {
        code_answers(tally, text, true, panics(|| replaced(&NormalizedString::from(text), Invert(""), "x")));
    }
    code_answers(tally, "no text, a", "x", replaced(&NormalizedString::from(""), Invert("a"), "x").get());
}

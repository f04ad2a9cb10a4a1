//! What the comments of `NormalizedString::split`, of `PreTokenizedString` and of `get_splits` say, tokens aside.

use super::{code_answers, note_of, panics, split_here, splits_here};
use crate::library;
use crate::made;
use crate::note::Note;
use crate::places::{self, Given, Place};
use crate::refusals::BAD_MATCHES;
use crate::split::{self, at_dashes, BEHAVIORS};
use crate::tally::Tally;
use tokenizers::normalizer::Range;
use tokenizers::normalizer::SplitDelimiterBehavior::{
    self, Contiguous, Isolated, MergedWithNext, MergedWithPrevious, Removed,
};
use tokenizers::pattern::Pattern;
use tokenizers::pre_tokenizer::{OffsetType, PreTokenizedString};
use tokenizers::{NormalizedString, OffsetReferential, Offsets};

pub fn compare(tally: &mut Tally) {
    removed(tally);
    five_behaviors(tally);
    contiguous(tally);
    delimiters_without_a_neighbour(tally);
    empty_places(tally);
    empty_literal(tally);
    lists_that_do_not_cover(tally);
    combined_back(tally);
    fewer_splits(tally);
    failed_split(tally);
    cleaned_offsets(tally);
    shifted_pieces(tally);
    characters_and_bytes(tally);
}

fn cut(note: &NormalizedString, pattern: impl Pattern, behavior: SplitDelimiterBehavior) -> Vec<NormalizedString> {
    note.split(pattern, behavior).expect("a literal or a list is found")
}

fn texts(pieces: &[NormalizedString]) -> Vec<&str> {
    pieces.iter().map(NormalizedString::get).collect()
}

/// The pieces of a starting note, by the original and by this library.
fn splits(tally: &mut Tally, text: &str, places: &[Place], behavior: SplitDelimiterBehavior, said: &[&str]) {
    let (note, input) = (NormalizedString::from(text), format!("{text}, {places:?}, {behavior:?}"));
    code_answers(tally, &input, said, &texts(&cut(&note, Given(places.to_vec()), behavior)));
    let ours = split_here(&Note::from(&note), &places::bytes(places), behavior, false);
    let ours = ours.map(|places| places.into_iter().map(|(start, end)| &text[start..end]).collect());
    code_answers(tally, &input, Ok(said.to_vec()), ours);
}

fn removed(tally: &mut Tally) {
    tally.family("Removed leaves no empty piece in the place of a delimiter");
    let text = "the-final--countdown";
    splits(tally, text, &at_dashes(text), Removed, &["the", "final", "countdown"]);
    splits(tally, "--", &at_dashes("--"), Removed, &[]);
}

fn five_behaviors(tally: &mut Tally) {
    tally.family("split has five behaviours: its comment does not list Contiguous");
    let text = "the-final--countdown";
    for (behavior, said) in [
        (Isolated, &["the", "-", "final", "-", "-", "countdown"][..]),
        (MergedWithPrevious, &["the-", "final-", "-", "countdown"]),
        (MergedWithNext, &["the", "-final", "-", "-countdown"]),
        (Contiguous, &["the", "-", "final", "--", "countdown"]),
    ] {
        splits(tally, text, &at_dashes(text), behavior, said);
    }
}

fn contiguous(tally: &mut Tally) {
    tally.family("Contiguous joins places that are no delimiters, too");
    let places = [((0, 1), false), ((1, 2), false)];
    splits(tally, "ab", &places, Contiguous, &["ab"]);
    for behavior in [Removed, Isolated, MergedWithPrevious, MergedWithNext] {
        splits(tally, "ab", &places, behavior, &["a", "b"]);
    }
}

fn delimiters_without_a_neighbour(tally: &mut Tally) {
    tally.family("a delimiter is merged with a piece that is no delimiter, or stays by itself");
    splits(tally, "-a", &at_dashes("-a"), MergedWithPrevious, &["-", "a"]);
    splits(tally, "a-", &at_dashes("a-"), MergedWithNext, &["a", "-"]);
    splits(tally, "--a", &at_dashes("--a"), MergedWithPrevious, &["-", "-", "a"]);
    splits(tally, "a--", &at_dashes("a--"), MergedWithPrevious, &["a-", "-"]);
    splits(tally, "--a", &at_dashes("--a"), MergedWithNext, &["-", "-a"]);
}

/// They come from a list only: no literal is found so.
fn empty_places(tally: &mut Tally) {
    tally.family("an empty unmatched place is a piece, under Removed too, and parts the delimiters beside it");
    let places = [((0, 1), true), ((1, 1), false), ((1, 2), true)];
    splits(tally, "--", &places, Removed, &[""]);
    splits(tally, "--", &places, Contiguous, &["-", "", "-"]);
    splits(tally, "--", &places, MergedWithPrevious, &["-", "-"]);
    splits(tally, "--", &places, MergedWithNext, &["-", "-"]);
    let places = [((0, 0), true), ((0, 1), false)];
    splits(tally, "a", &places, Isolated, &["", "a"]);
    splits(tally, "a", &places, MergedWithNext, &["a"]);
    splits(tally, "", &[((0, 0), false)], Isolated, &[""]);
    splits(tally, "", &[], Isolated, &[]);
}

/// The place ends at the number of characters: what is after it is lost, and where it ends inside one, `split` panics.
fn empty_literal(tally: &mut Tally) {
    tally.family("split by an empty literal loses what is past the character count, or panics");
    for behavior in BEHAVIORS {
        for (text, said) in [("", Some("")), ("ab", Some("ab")), ("éa", Some("é")), ("é", None), ("aé漢😀", None)]
        {
            let (note, input) = (NormalizedString::from(text), format!("{text}, {behavior:?}"));
            code_answers(tally, &input, said.is_none(), panics(|| cut(&note, "", behavior)));
            if let Some(said) = said {
                code_answers(tally, &input, vec![said], texts(&cut(&note, "", behavior)));
            }
            let mut list = [0; 5];
            library::find_matches(text.as_bytes(), b"", &mut list);
            let ours = split_here(&Note::from(&note), &list, behavior, false);
            code_answers(tally, &input, Ok(vec![(0, text.len())]), ours);
        }
    }
}

/// `find_matches` "*must* cover the whole string": `split` does not ask.
fn lists_that_do_not_cover(tally: &mut Tally) {
    tally.family("split takes lists that do not cover, and panics on those whose places cannot be sliced");
    let taken: [(&[Place], &[&str]); 4] = [
        (&[((1, 2), true)], &["b"]),
        (&[], &[]),
        (&[((0, 2), true), ((1, 3), true)], &["ab", "bc"]),
        (&[((2, 3), false), ((0, 1), true)], &["c", "a"]),
    ];
    let note = NormalizedString::from("abc");
    for (places, said) in taken {
        let input = format!("abc, {places:?}");
        code_answers(tally, &input, said, &texts(&cut(&note, Given(places.to_vec()), Isolated)));
        let ours = split_here(&Note::from(&note), &places::bytes(places), Isolated, false);
        code_answers(tally, &input, Some(BAD_MATCHES), ours.err());
    }
    let panicking: [(&str, &[Place]); 4] =
        [("abc", &[((2, 1), false)]), ("abc", &[((0, 9), true)]), ("abc", &[((9, 9), true)]), ("é", &[((0, 1), true)])];
    for (text, places) in panicking {
        let (note, input) = (NormalizedString::from(text), format!("{text}, {places:?}"));
        code_answers(tally, &input, true, panics(|| cut(&note, Given(places.to_vec()), Isolated)));
        let ours = split_here(&Note::from(&note), &places::bytes(places), Isolated, false);
        code_answers(tally, &input, Some(BAD_MATCHES), ours.err());
    }
}

/// What the pieces have of the transcript, put together, by the original and by this library.
fn combines(tally: &mut Tally, note: &NormalizedString, literal: &str, behavior: SplitDelimiterBehavior, said: &str) {
    let input = format!("{literal}, {behavior:?}, {note:?}");
    let theirs: String = cut(note, literal, behavior).iter().map(NormalizedString::get_original).collect();
    code_answers(tally, &input, said, &theirs);
    let places = literal.find_matches(note.get()).expect("a literal is a regular expression");
    let ours = made::pieces(&Note::from(note), &places::bytes(&places), split::number(behavior));
    let ours = ours.map(|pieces| pieces.into_iter().flat_map(|piece| piece.original).collect());
    code_answers(tally, &input, Ok(said.as_bytes().to_vec()), ours);
}

fn combined_back(tally: &mut Tally) {
    tally.family("the pieces' transcripts do not combine back: what is removed, blanked or shared");
    combines(tally, &NormalizedString::from("a-b"), "-", Removed, "ab");
    let mut blanked = NormalizedString::from("nest 12");
    blanked.replace("12", "**").expect("a literal is a regular expression");
    combines(tally, &blanked, "**", Isolated, "nest 2");
    combines(tally, &note_of("é", "e-", &[(0, 2), (0, 2)]), "-", Isolated, "éé");
}

fn fewer_splits(tally: &mut Tally) {
    tally.family("PreTokenizedString::split can leave fewer splits than there were: it drops empty ones");
    for text in ["", "-"] {
        let mut splits = PreTokenizedString::from(text);
        code_answers(tally, text, 1, splits.pieces().count());
        splits.split(|_, note| note.split("-", Removed)).expect("a literal is a regular expression");
        code_answers(tally, text, 0, splits.pieces().count());
        let places = "-".find_matches(text).expect("a literal is a regular expression");
        let note = Note::from(&NormalizedString::from(text));
        code_answers(tally, text, Ok(vec![]), split_here(&note, &places::bytes(&places), Removed, true));
    }
}

/// "Making sure everything is fine while doing so".
fn failed_split(tally: &mut Tally) {
    tally.family("PreTokenizedString::split loses all splits where its function fails");
    let mut splits = PreTokenizedString::from("a-b");
    splits.split(|_, note| note.split("-", Isolated)).expect("a literal is a regular expression");
    code_answers(tally, "a-b", 3, splits.pieces().count());
    let fail = |i: usize, note: NormalizedString| if i == 0 { Ok(vec![note]) } else { Err("the second".into()) };
    code_answers(tally, "a-b", true, splits.split(fail).is_err());
    code_answers(tally, "a-b", 0, splits.pieces().count());
}

/// Transcript or cleaned text, characters or bytes.
fn offsets(
    note: &NormalizedString,
    places: &[Place],
    behavior: SplitDelimiterBehavior,
    [of_original, characters]: [bool; 2],
) -> Vec<Offsets> {
    let referential = if of_original { OffsetReferential::Original } else { OffsetReferential::Normalized };
    let unit = if characters { OffsetType::Char } else { OffsetType::Byte };
    let mut splits = PreTokenizedString::from(note.clone());
    splits.split(|_, note| note.split(Given(places.to_vec()), behavior)).expect("the places are given");
    splits.get_splits(referential, unit).into_iter().map(|(_, offsets, _)| offsets).collect()
}

/// By the original and by this library.
fn gets(
    tally: &mut Tally,
    note: &NormalizedString,
    behavior: SplitDelimiterBehavior,
    way: [bool; 2],
    said: &[Offsets],
) {
    let (places, input) = (at_dashes(note.get()), format!("{behavior:?}, {way:?}, {note:?}"));
    code_answers(tally, &input, said, &offsets(note, &places, behavior, way));
    let ours = splits_here(&Note::from(note), &places::bytes(&places), behavior, way);
    code_answers(tally, &input, Ok(said.to_vec()), ours);
}

fn cleaned_offsets(tally: &mut Tally) {
    tally.family("get_splits counts cleaned offsets over the pieces that remain, not in the cleaned text");
    gets(tally, &NormalizedString::from("a-b"), Removed, [false, false], &[(0, 1), (1, 2)]);
    gets(tally, &NormalizedString::from("a-b"), Removed, [true, false], &[(0, 1), (2, 3)]);
    gets(tally, &NormalizedString::from("a-b"), Removed, [false, true], &[(0, 1), (1, 2)]);
}

/// The transcript is the slice's own, the offsets are not.
fn shifted_pieces(tally: &mut Tally) {
    tally.family("get_splits of a slice: offsets of the longer transcript, looked up as characters of the slice's own");
    let slice = |text: &str, start: usize| {
        let note = NormalizedString::from(text);
        note.slice(Range::Original(start..text.len())).expect("both ends are boundaries")
    };
    gets(tally, &slice("aé", 1), Isolated, [true, false], &[(1, 3)]);
    gets(tally, &slice("aé", 1), Isolated, [true, true], &[(0, 2)]);
    gets(tally, &slice("aé", 1), Isolated, [false, true], &[(0, 1)]);
    gets(tally, &slice("abcd", 2), Isolated, [true, true], &[(2, 4)]);
}

fn characters_and_bytes(tally: &mut Tally) {
    tally.family("get_splits in characters: where the converter has no answer the numbers are bytes, in one list");
    let note = NormalizedString::from("éé-é-é");
    let slice = note.slice(Range::Original(2..note.len())).expect("both ends are boundaries");
    gets(tally, &slice, Isolated, [true, false], &[(2, 4), (4, 5), (5, 7), (7, 8), (8, 10)]);
    gets(tally, &slice, Isolated, [true, true], &[(1, 2), (2, 3), (3, 4), (4, 5), (8, 10)]);
    gets(tally, &slice, Isolated, [false, true], &[(0, 1), (1, 2), (2, 3), (3, 4), (4, 5)]);
    let longer = note_of("é", "é-é", &[(0, 2); 5]);
    gets(tally, &longer, Isolated, [false, true], &[(0, 1), (2, 3), (3, 5)]);
    gets(tally, &longer, Isolated, [true, true], &[(0, 1), (0, 1), (0, 1)]);
}

//! What the comments of `PreTokenizedString` say of splits that have tokens, and of those that do not. This library has
//! no tokens.

use super::code_answers;
use crate::tally::Tally;
use tokenizers::normalizer::SplitDelimiterBehavior::Isolated;
use tokenizers::pre_tokenizer::{OffsetType, PreTokenizedString};
use tokenizers::TruncationDirection::{self, Left, Right};
use tokenizers::{NormalizedString, OffsetReferential, Offsets, Result, Token};

pub fn compare(tally: &mut Tally) {
    passed_over(tally);
    failing(tally);
    not_ended(tally);
    more_than_the_limit(tally);
    limit_of_nothing(tally);
    dropped(tally);
}

pub fn token(value: &str, offsets: Offsets) -> Token {
    Token { id: 7, value: value.into(), offsets }
}

/// One token for all of a split.
pub fn whole(note: &NormalizedString) -> Result<Vec<Token>> {
    Ok(vec![token(note.get(), (0, note.len()))])
}

/// A token for each character of a split.
fn each(note: &NormalizedString) -> Result<Vec<Token>> {
    let tokens = note.get().char_indices().map(|(at, c)| token(&c.to_string(), (at, at + c.len_utf8())));
    Ok(tokens.collect())
}

/// One token for a split that has no hyphen.
fn without_hyphen(note: &NormalizedString) -> Result<Vec<Token>> {
    if note.get().contains('-') {
        return Err("a hyphen".into());
    }
    whole(note)
}

/// The text `a-b` in three splits, `a`, `-` and `b`; those that are marked have a token.
pub fn three(marked: [bool; 3]) -> PreTokenizedString {
    let mut splits = PreTokenizedString::from("a-b");
    splits.split(|_, note| note.split("-", Isolated)).expect("a literal is a regular expression");
    let mark = |i: usize, note: NormalizedString| {
        let tokens = if marked[i] { Some(whole(&note)?) } else { None };
        Ok([(note, tokens)])
    };
    splits.split(mark).expect("every split has a token");
    splits
}

/// The text of each split, and how many tokens it has, if it has any.
type Had<'a> = (&'a str, Option<usize>);

fn had(splits: &PreTokenizedString) -> Vec<Had<'_>> {
    let splits = splits.get_splits(OffsetReferential::Original, OffsetType::Byte).into_iter();
    splits.map(|(text, _, tokens)| (text, tokens.as_ref().map(Vec::len))).collect()
}

fn passed_over(tally: &mut Tally) {
    tally.family("PreTokenizedString::split passes no split that has tokens, and the numbers that it passes jump");
    let (mut splits, mut passed) = (three([false, true, false]), vec![]);
    let look = |i: usize, note: NormalizedString| {
        passed.push((i, note.get().to_owned()));
        Ok([note])
    };
    splits.split(look).expect("nothing fails");
    code_answers(tally, "a-b", vec![(0, "a".to_owned()), (2, "b".to_owned())], passed);
    code_answers(tally, "a-b", vec![("a", None), ("-", Some(1)), ("b", None)], had(&splits));

    tally.family("PreTokenizedString::split keeps an empty split that has tokens");
    let mut splits = PreTokenizedString::from("");
    splits.tokenize(each).expect("nothing fails");
    splits.split(|_, note| Ok([note])).expect("nothing fails");
    code_answers(tally, "the empty text", vec![("", Some(0))], had(&splits));
}

fn failing(tally: &mut Tally) {
    tally.family("normalize and tokenize, where their function fails: the splits before are done, the others are not");
    let mut splits = three([false; 3]);
    let change = |note: &mut NormalizedString| {
        without_hyphen(note)?;
        note.map(|_| 'x');
        Ok(())
    };
    code_answers(tally, "a-b", true, splits.normalize(change).is_err());
    code_answers(tally, "a-b", vec![("x", None), ("-", None), ("b", None)], had(&splits));
    let mut splits = three([false; 3]);
    code_answers(tally, "a-b", true, splits.tokenize(without_hyphen).is_err());
    code_answers(tally, "a-b", vec![("a", Some(1)), ("-", None), ("b", None)], had(&splits));
}

/// What is left by the limit, with one token for each split that is tokenized.
fn limits(tally: &mut Tally, marked: [bool; 3], limit: usize, direction: TruncationDirection, said: &[Had]) {
    let mut splits = three(marked);
    splits.tokenize_with_limit(whole, limit, direction).expect("every split has a token");
    code_answers(tally, &format!("a-b, {marked:?} with tokens, limit {limit}"), said, &had(&splits));
}

fn not_ended(tally: &mut Tally) {
    tally.family("tokenize_with_limit goes on after a split that has tokens already, however many there are");
    limits(tally, [true, false, false], 1, Right, &[("a", Some(1)), ("-", Some(1))]);
    limits(tally, [false, false, true], 1, Left, &[("-", Some(1)), ("b", Some(1))]);
    limits(tally, [true; 3], 1, Right, &[("a", Some(1)), ("-", Some(1)), ("b", Some(1))]);
    limits(tally, [true; 3], 1, Left, &[("a", Some(1)), ("-", Some(1)), ("b", Some(1))]);
}

fn more_than_the_limit(tally: &mut Tally) {
    tally.family("tokenize_with_limit stops after a whole split, and keeps all of its tokens");
    for direction in [Left, Right] {
        let mut splits = PreTokenizedString::from("ab");
        splits.tokenize_with_limit(each, 1, direction).expect("every split has tokens");
        code_answers(tally, "ab, limit 1", vec![("ab", Some(2))], had(&splits));
    }
}

fn limit_of_nothing(tally: &mut Tally) {
    tally.family("tokenize_with_limit of 0 tokenizes one split and keeps it");
    limits(tally, [false; 3], 0, Right, &[("a", Some(1))]);
    limits(tally, [false; 3], 0, Left, &[("b", Some(1))]);
}

fn dropped(tally: &mut Tally) {
    tally.family("tokenize_with_limit drops the splits that it does not reach, also those that have tokens");
    limits(tally, [false, false, true], 1, Right, &[("a", Some(1))]);
    limits(tally, [true, false, false], 1, Left, &[("b", Some(1))]);
}

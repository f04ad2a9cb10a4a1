//! The texts that are measured on: four kinds, with a literal at regular and at irregular distances.

use crate::note::Note;
use crate::places::{self, Place};
use crate::random::Random;
use crate::texts::{self, Kind};
use std::ops::Range;
use tokenizers::NormalizedString;

pub const LEN: usize = 60_000;
pub const SIZES: [usize; 4] = [LEN / 8, LEN / 4, LEN / 2, LEN];
pub const LITERAL: &str = "Nest 12";
pub const FILLER: &str = "*****";

/// A text with `LITERAL` in it, and the places that cover it.
pub struct Marked {
    pub text: String,
    pub places: Vec<Place>,
}

pub struct Texts {
    pub name: &'static str,
    pub regular: [Marked; 1],
    pub irregular: Vec<Marked>,
}

pub fn texts() -> Vec<Texts> {
    let kinds = [("ASCII", Kind::Ascii), ("mixed", Kind::Mixed), ("CJK", Kind::Cjk), ("emoji", Kind::Emoji)];
    let mut random = Random::new(60);
    let of_kind = |(name, kind)| {
        let regular = [marked(kind, LEN, &mut random, |_| 45 - LITERAL.len())];
        let irregular = (0..12).map(|_| marked(kind, LEN, &mut random, |random| 13 + random.below(51))).collect();
        Texts { name, regular, irregular }
    };
    kinds.map(of_kind).into()
}

/// A mixed text of each size.
pub fn sizes() -> Vec<Marked> {
    let mut random = Random::new(62);
    SIZES.map(|size| marked(Kind::Mixed, size, &mut random, |_| 45 - LITERAL.len())).into()
}

/// Stretches of a text, each followed by `LITERAL`.
fn marked(kind: Kind, len: usize, random: &mut Random, stretch: impl Fn(&mut Random) -> usize) -> Marked {
    let text = texts::text(kind, len, random);
    let mut marked = Marked { text: String::with_capacity(len), places: vec![] };
    loop {
        let start = marked.text.len();
        let end = start + stretch(random);
        if end + LITERAL.len() > len {
            break;
        }
        let begin = (start..).find(|&at| text.is_char_boundary(at)).expect("the text's end is a boundary");
        marked.text.push_str(&text[begin..texts::boundary_before(&text, end)]);
        marked.text.push_str(&"-".repeat(end - marked.text.len()));
        marked.text.push_str(LITERAL);
        marked.places.extend([((start, end), false), ((end, marked.text.len()), true)]);
    }
    assert_eq!(2 * marked.text.matches(LITERAL).count(), marked.places.len());
    marked
}

impl Marked {
    pub fn bytes(&self) -> &[u8] {
        self.text.as_bytes()
    }

    pub fn list(&self) -> Vec<u8> {
        places::bytes(&self.places)
    }

    /// As `NormalizedString::from` leaves it.
    pub fn fresh(&self) -> NormalizedString {
        NormalizedString::from(self.text.as_str())
    }

    /// The same with the literal replaced.
    pub fn edited(&self) -> NormalizedString {
        self.replaced(LITERAL, FILLER)
    }

    pub fn replaced(&self, literal: &str, filler: &str) -> NormalizedString {
        let mut note = self.fresh();
        note.replace(literal, filler).expect("a literal is a regular expression");
        note
    }

    /// 8,000 ranges of the longest text, fewer of a shorter one, in order and on boundaries, as a tokenizer leaves
    /// them.
    pub fn ranges(&self) -> Vec<Range<usize>> {
        let count = (8_000 * self.text.len()).div_ceil(LEN);
        let cut = |i: usize| texts::boundary_before(&self.text, i * self.text.len() / count);
        (0..count).map(|i| cut(i)..cut(i + 1)).collect()
    }
}

/// The library's form of each note.
pub fn notes(notes: &[NormalizedString]) -> Vec<Note> {
    notes.iter().map(Note::from).collect()
}

/// The header's room for any list of the literal.
pub fn any_list() -> Vec<u8> {
    vec![0; 5 * (2 * (LEN / LITERAL.len()) + 1)]
}

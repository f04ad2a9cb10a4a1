//! The Rust original: files of the folder that TOKENIZERS_SRC names, each included whole and unchanged, and thin
//! stand-ins for what they lean on that the folder does not have. They only let the files compile, and no comparison
//! runs one, but for `Token`, `TruncationDirection` and `Encoding`, which hold what they are passed. The included modules
//! are linted for nothing, since they stay as they are; their child modules are ours again.

use std::iter::Empty;

pub use normalizer::{NormalizedString, OffsetReferential};

pub type Error = Box<dyn std::error::Error + Send + Sync>;
pub type Result<T> = std::result::Result<T, Error>;
pub type Offsets = (usize, usize);

/// `log::trace!`, with no logger: the arguments are type-checked and never evaluated.
macro_rules! trace {
    ($($argument:tt)+) => {
        if false {
            let _ = format_args!($($argument)+);
        }
    };
}

#[allow(clippy::all, dead_code)]
pub mod pattern {
    include!(concat!(env!("TOKENIZERS_SRC"), "/src/tokenizer/pattern.rs"));
}

#[allow(clippy::all, dead_code)]
pub mod normalizer {
    include!(concat!(env!("TOKENIZERS_SRC"), "/src/tokenizer/normalizer.rs"));

    /// A child module, since only such a one reaches the private fields and functions.
    #[deny(clippy::all, dead_code)]
    mod fields {
        use super::{NormalizedString, Range};
        use crate::Offsets;
        use std::ops;

        impl NormalizedString {
            pub fn of_fields(
                original: String,
                normalized: String,
                alignments: Vec<Offsets>,
                original_shift: usize,
            ) -> Self {
                Self { original, normalized, alignments, original_shift }
            }

            pub fn alignments(&self) -> &[Offsets] {
                &self.alignments
            }

            pub fn original_shift(&self) -> usize {
                self.original_shift
            }

            /// `validate_range`, which is private.
            pub fn validated(&self, range: Range<ops::Range<usize>>) -> Option<Range<ops::Range<usize>>> {
                self.validate_range(range)
            }

            /// `alignments_original`, which only its own crate sees.
            pub fn alignments_of_original(&self) -> Vec<Offsets> {
                self.alignments_original()
            }
        }
    }
}

#[allow(clippy::all, dead_code)]
pub mod pre_tokenizer {
    include!(concat!(env!("TOKENIZERS_SRC"), "/src/tokenizer/pre_tokenizer.rs"));

    pub use converter::Converter;

    /// A child module, since only such a one reaches the private struct.
    #[deny(clippy::all, dead_code)]
    mod converter {
        use super::BytesToCharOffsetConverter;
        use crate::Offsets;

        pub struct Converter(BytesToCharOffsetConverter);

        impl Converter {
            pub fn new(sequence: &str) -> Self {
                Converter(BytesToCharOffsetConverter::new(sequence))
            }

            pub fn convert(&self, offsets: Offsets) -> Option<Offsets> {
                self.0.convert(offsets)
            }
        }
    }

    /// A child module, since only such a one reaches the private fields.
    #[deny(clippy::all, dead_code)]
    mod pieces {
        use super::PreTokenizedString;
        use crate::NormalizedString;

        impl PreTokenizedString {
            pub fn pieces(&self) -> impl Iterator<Item = &NormalizedString> {
                self.splits.iter().map(|split| &split.normalized)
            }
        }
    }
}

pub mod utils {
    /// Of the crates `onig` or `fancy_regex`: it has no values.
    pub enum SysRegex {}

    impl SysRegex {
        pub fn find_iter(&self, _inside: &str) -> std::iter::Empty<crate::Offsets> {
            match *self {}
        }
    }
}

// The next line makes this crate the one of that name, and so the trait below its trait.
extern crate self as unicode_normalization_alignments;

pub trait UnicodeNormalization {
    fn nfd(&self) -> Empty<(char, isize)> {
        unimplemented!("normalization forms are not compared")
    }
    fn nfkd(&self) -> Empty<(char, isize)> {
        self.nfd()
    }
    fn nfc(&self) -> Empty<(char, isize)> {
        self.nfd()
    }
    fn nfkc(&self) -> Empty<(char, isize)> {
        self.nfd()
    }
}

impl UnicodeNormalization for str {}

#[derive(Debug, Clone, PartialEq, Eq)]
pub struct Token {
    pub id: u32,
    pub value: String,
    pub offsets: Offsets,
}

pub enum TruncationDirection {
    Left,
    Right,
}

/// A token as `into_encoding` hands it on: id, value, offsets, word, type.
pub type Encoded = (u32, String, Offsets, Option<u32>, u32);

/// The tokens that `into_encoding` hands on, as they are.
#[derive(Debug, Default, PartialEq, Eq)]
pub struct Encoding(pub Vec<Encoded>);

impl FromIterator<Encoded> for Encoding {
    fn from_iter<I: IntoIterator<Item = Encoded>>(tokens: I) -> Self {
        Encoding(tokens.into_iter().collect())
    }
}

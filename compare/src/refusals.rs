//! The refusals of docs/RULES.md, by number. 0 means acceptance.

pub const ILL_FORMED: u32 = 1;
pub const TOO_LONG: u32 = 2;
pub const LENGTH_MISMATCH: u32 = 3;
pub const MISALIGNED: u32 = 4;
pub const NOT_BOUNDARY: u32 = 5;
pub const BAD_SCRIPT: u32 = 6;
pub const EXHAUSTED: u32 = 7;
pub const BAD_MATCHES: u32 = 8;
pub const NO_ROOM: u32 = 9;
pub const MISSING: u32 = 10;
pub const COUNT_MISMATCH: u32 = 11;

/// Of several that are met, the first of these is answered.
const ORDER: [u32; 11] = [
    TOO_LONG,
    LENGTH_MISMATCH,
    ILL_FORMED,
    MISALIGNED,
    BAD_SCRIPT,
    BAD_MATCHES,
    COUNT_MISMATCH,
    NOT_BOUNDARY,
    MISSING,
    EXHAUSTED,
    NO_ROOM,
];

/// The first of them all.
pub fn first(met: &[u32]) -> Option<u32> {
    ORDER.into_iter().find(|refusal| met.contains(refusal))
}

/// What is printed for each number.
pub const NAMES: [&str; 12] = [
    "accepted",
    "1 IllFormed",
    "2 TooLong",
    "3 LengthMismatch",
    "4 Misaligned",
    "5 NotBoundary",
    "6 BadScript",
    "7 Exhausted",
    "8 BadMatches",
    "9 NoRoom",
    "10 Missing",
    "11 CountMismatch",
];

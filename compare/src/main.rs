//! Compares the proved library and the programs `redact` and `pieces` with the Rust original, call by call, measures
//! the library (`bench`), and writes the list of the original's answers that crates/replay replays (`list`).
//! Each module of calls has a file whose function `compare` has the families; the bench's tables are below `bench`.

mod answers;
mod bench;
mod blanking;
mod characters;
mod comments;
mod convert;
mod edits;
mod every;
mod find;
mod guarded;
mod library;
mod list;
mod lists;
mod made;
mod note;
mod notes;
mod pieces;
mod places;
mod positions;
mod program;
mod random;
mod ranges;
mod redact;
mod redact_all;
mod redact_note;
mod refusals;
mod replace;
mod replace_by_edits;
mod samples;
mod slice;
mod split;
mod splits;
mod tally;
mod texts;

use std::process::ExitCode;

fn main() -> ExitCode {
    let arguments: Vec<String> = std::env::args().skip(1).collect();
    let arguments: Vec<&str> = arguments.iter().map(String::as_str).collect();
    match arguments[..] {
        [] => compare(""),
        ["only", word] => compare(word),
        ["bench"] => bench::measure(""),
        ["bench", word] => bench::measure(word),
        ["list"] => answers::write(),
        _ => {
            eprintln!("The arguments are those of compare/run.");
            ExitCode::from(2)
        }
    }
}

fn compare(word: &str) -> ExitCode {
    let mut report = tally::Report::of(word);
    characters::compare(&mut report);
    notes::compare(&mut report);
    convert::compare(&mut report);
    positions::compare(&mut report);
    find::compare(&mut report);
    replace::compare(&mut report);
    replace_by_edits::compare(&mut report);
    blanking::compare(&mut report);
    edits::compare(&mut report);
    redact::compare(&mut report);
    redact_note::compare(&mut report);
    redact_all::compare(&mut report);
    slice::compare(&mut report);
    split::compare(&mut report);
    splits::compare(&mut report);
    program::compare(&mut report);
    pieces::compare(&mut report);
    comments::compare(&mut report);
    report.finish()
}

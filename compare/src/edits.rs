//! Editing beside `transform_range`, `transform`, `map`, `filter`, `append`, `prepend`, `clear` and `lowercase`. Where
//! a command is to replace a character and none is left, the Rust panics or goes on past the range: there characters
//! are counted.

mod carried;
mod edit;
mod long;
mod lowercase;
mod refused;
mod short;

pub use edit::{bytes, Change, Edit};

use crate::tally::Report;

pub fn compare(report: &mut Report) {
    report.call("zulmyren_transform_range", "NormalizedString::transform_range", |tally| {
        short::every_range(tally);
        long::any_ranges(tally);
    });
    report.call("zulmyren_transform", "NormalizedString::transform", |tally| {
        short::every_script(tally);
        long::any_scripts(tally);
    });
    report.call("zulmyren_map", "NormalizedString::map", |tally| {
        short::every_map(tally);
        long::any_codes(tally);
    });
    report.call("zulmyren_filter", "NormalizedString::filter", |tally| {
        short::every_filter(tally);
        long::any_flags(tally);
    });
    report.call("zulmyren_append", "NormalizedString::append", |tally| {
        short::every_string(tally, Edit::Append);
        long::any_appended(tally);
    });
    report.call("zulmyren_prepend", "NormalizedString::prepend", |tally| {
        short::every_string(tally, Edit::Prepend);
        long::any_prepended(tally);
    });
    report.call("zulmyren_clear", "NormalizedString::clear", |tally| {
        short::every_clear(tally);
        long::any_clear(tally);
    });
    report.call("zulmyren_lowercase", "NormalizedString::lowercase", |tally| {
        lowercase::compare(tally);
        short::every_lowercase(tally);
        long::any_letters(tally);
        carried::after_lowercase(tally);
    });
    report.call("the eight edits", "the Rust's and a second judge", |tally| {
        long::around_the_limit(tally);
        refused::compare(tally);
        carried::compare(tally);
    });
}

//! What a comparison found: for each call a block with its families of cases, what differed in them, and how often each
//! answer was given. A family counts as one test.

use crate::note::Offset;
use crate::refusals;
use std::process::ExitCode;

/// Differences that a family prints; it counts them all.
const PRINTED: usize = 5;

pub fn refusal(number: u32) -> &'static str {
    refusals::NAMES.get(number as usize).copied().unwrap_or("no refusal")
}

#[derive(Default)]
pub struct Report {
    /// What is compared: the calls whose name has this word.
    word: String,
    /// The names of all calls.
    names: Vec<String>,
    passed: u32,
    failed: u32,
}

impl Report {
    pub fn of(word: &str) -> Self {
        Report { word: word.into(), ..Report::default() }
    }

    /// Whether a call of this name is to be run.
    pub fn asks_for(&mut self, name: &str) -> bool {
        if !self.names.iter().any(|known| known == name) {
            self.names.push(name.into());
        }
        name.contains(&self.word)
    }

    pub fn call(&mut self, name: &str, beside: &str, compare: impl FnOnce(&mut Tally)) {
        if !self.asks_for(name) {
            return;
        }
        println!("{name} beside {beside}");
        let mut tally = Tally::default();
        compare(&mut tally);
        tally.close_family();
        tally.print_answers();
        self.passed += tally.passed;
        self.failed += tally.failed;
    }

    /// A test that is no family.
    pub fn test(&mut self, passed: bool) {
        if passed {
            self.passed += 1;
        } else {
            self.failed += 1;
        }
    }

    /// Prints how many tests passed. A run that tested nothing fails, too.
    pub fn finish(self) -> ExitCode {
        if !self.names.iter().any(|name| name.contains(&self.word)) {
            eprintln!("No call has \"{}\" in its name. The names are:\n{}", self.word, self.names.join("\n"));
            return ExitCode::from(2);
        }
        println!("{} passed, {} failed", self.passed, self.failed);
        if self.passed + self.failed == 0 {
            eprintln!("Nothing was tested.");
        }
        ExitCode::from(u8::from(self.passed == 0 || self.failed > 0))
    }
}

#[derive(Default)]
pub struct Tally {
    family: Option<Family>,
    /// How often each answer was given.
    answers: Vec<(&'static str, u64)>,
    passed: u32,
    failed: u32,
}

struct Family {
    name: &'static str,
    cases: u64,
    differing: u64,
    /// The first differences, in words.
    first: Vec<String>,
}

impl Tally {
    /// The cases from here to the next family are `name`'s.
    pub fn family(&mut self, name: &'static str) {
        self.close_family();
        self.family = Some(Family { name, cases: 0, differing: 0, first: vec![] });
    }

    /// One case: our answer's word, whether anything differed, and the case in words where it did.
    pub fn case(&mut self, answer: &'static str, differs: bool, describe: impl FnOnce() -> String) {
        match self.answers.iter_mut().find(|(known, _)| *known == answer) {
            Some((_, times)) => *times += 1,
            None => self.answers.push((answer, 1)),
        }
        let family = self.family.as_mut().expect("a case belongs to a family");
        family.cases += 1;
        if differs {
            family.differing += 1;
            if family.first.len() < PRINTED {
                family.first.push(describe());
            }
        }
    }

    fn print_answers(&mut self) {
        self.answers.sort_by_key(|(answer, _)| refusals::NAMES.iter().position(|known| known == answer));
        println!("  in all {} cases", self.answers.iter().map(|(_, times)| times).sum::<u64>());
        for (answer, times) in &self.answers {
            println!("    {answer}: {times}");
        }
        println!();
    }

    fn close_family(&mut self) {
        if let Some(Family { name, cases, differing, first }) = self.family.take() {
            println!("  {name}: {cases} cases, {differing} differ");
            for difference in first {
                println!("    {difference}");
            }
            // A family without cases compares nothing.
            if cases > 0 && differing == 0 {
                self.passed += 1;
            } else {
                self.failed += 1;
            }
        }
    }
}

/// A text in full, or a long one's beginning and length.
pub fn hex(text: &[u8]) -> String {
    format!("{:02x?}{}", beginning(text), rest(text))
}

/// A column in full, or a long one's beginning and length.
pub fn numbers(column: &[Offset]) -> String {
    format!("{:?}{}", beginning(column), rest(column))
}

fn beginning<T>(list: &[T]) -> &[T] {
    &list[..list.len().min(300)]
}

fn rest<T>(list: &[T]) -> String {
    if list.len() <= 300 {
        String::new()
    } else {
        format!(" and so on, {} in all", list.len())
    }
}

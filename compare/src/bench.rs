//! Times of our calls beside others that a user could pick: same process, same texts, buffers prepared before. What is
//! printed is the table of docs/BENCHMARKS.md. A cell with an aim counts as a test, and fails where the aim is missed.
//!
//! The aims are below `bench`, beside the rows: `RUST.at_most([0.61, 0.11, 0.14, 0.29])` for ASCII, mixed, CJK and
//! emoji text in the regular layout, `.in_rotation([..])` for the other, and after the row `.of_regular([..])` for ours
//! in one beside ours in the other. An aim is what earlier runs held, with a tenth to spare. A row with
//! an aim of another kind, or without one because ours is slower than the Rust, says why: `.because("..")`.

mod buffers;
mod characters;
mod convert;
mod edits;
mod find;
mod layouts;
mod notes;
mod replace;
mod slice;
mod split;

use crate::tally::Report;
use layouts::{Marked, Texts};
use std::hint::black_box;
use std::process::ExitCode;
use std::time::{Duration, Instant};

/// At most so many rounds for a row. A side that took longer than `ENOUGH` in the fewest leaves the others alone.
const ROUNDS: usize = 100;
const FEWEST: usize = 4;
const ENOUGH: Duration = Duration::from_millis(250);

/// Texts that one side goes through in a round: the first of them find the caches as the other side left them.
const RUNS: usize = 24;

/// Measures the calls whose name has `word` in it, and prints two tables in Markdown.
pub fn measure(word: &str) -> ExitCode {
    let mut bench = Bench::new(word);
    characters::bench(&mut bench);
    notes::bench(&mut bench);
    convert::bench(&mut bench);
    find::bench(&mut bench);
    heap::keep_what_is_freed();
    replace::bench(&mut bench);
    edits::bench(&mut bench);
    slice::bench(&mut bench);
    split::bench(&mut bench);
    bench.finish()
}

fn heading() {
    let commit = std::env::var("ZULMYREN_COMMIT").unwrap_or_else(|_| "unknown".into());
    println!(
        "Commit {commit}. Texts of up to {} bytes; times in µs. A cell of another has ours / theirs, theirs in brackets.
regular: a literal every 45 bytes; the best of up to {} runs, {RUNS} of ours and {RUNS} of theirs by turns.
rotation: 12 texts with 13 to 63 bytes between literals, one after the other, so that none is learned; the mean over
them of the best half of each one's runs. From `replace` on, what is freed stays with the process: theirs takes no fresh
pages from the system. A number after ≤ is an aim: what earlier runs held, with a tenth to spare, where no other reason is
named below the table. A cell in bold misses it.\n",
        layouts::LEN,
        ROUNDS * RUNS
    );
    println!("| Call | Text | Layout | Ours | {} | Of regular |", OTHERS.join(" | "));
    println!("|---|---|---|--:|{}--:|", "--:|".repeat(OTHERS.len()));
}

/// What a ratio may be on ASCII, mixed, CJK and emoji text.
type Aims = [f64; 4];

/// What ours may take of the linear as a text grows from the least of the sizes. The branches of a short text are learned
/// by the processor, and those of a long one not on every machine: there `filter` takes 1.7. A square would take 8.
const LINEAR: f64 = 2.0;

/// The columns of the table: who else is measured. A row says in its name what exactly.
const OTHERS: [&str; 5] =
    ["The Rust", "simdutf8 and the Rust or memmem", "memmem alone", "Copying", "Ours, as the row says"];
const RUST: Other = Other::in_column(0);
const SIMDUTF8: Other = Other::in_column(1);
const MEMMEM: Other = Other::in_column(2);
const COPYING: Other = Other::in_column(3);
const OURS: Other = Other::in_column(4);

#[derive(Clone, Copy)]
enum Layout {
    Regular,
    Rotation,
}

/// Another call than ours: its column, and what ours may take of its time.
#[derive(Clone, Copy)]
struct Other {
    column: usize,
    regular: Option<Aims>,
    rotation: Option<Aims>,
}

impl Other {
    const fn in_column(column: usize) -> Self {
        Other { column, regular: None, rotation: None }
    }

    /// In the regular layout.
    const fn at_most(self, aims: Aims) -> Self {
        Other { regular: Some(aims), ..self }
    }

    const fn in_rotation(self, aims: Aims) -> Self {
        Other { rotation: Some(aims), ..self }
    }

    fn aims(&self, layout: Layout) -> Option<Aims> {
        match layout {
            Layout::Regular => self.regular,
            Layout::Rotation => self.rotation,
        }
    }
}

/// One side of a row: runs on the row's text of that number, and answers its time.
type Side<'a> = Box<dyn FnMut(usize) -> Duration + 'a>;

struct Table {
    name: &'static str,
    /// What is taken off the time of ours, if anything: then its side is after ours.
    beyond: Option<&'static str>,
    others: &'static [Other],
    /// What ours in rotation may take of ours in the regular layout.
    of_regular: Option<Aims>,
    /// Why there is no aim, or one of another kind than earlier runs held with a tenth to spare.
    reason: Option<&'static str>,
}

/// One line of a table.
struct Line<'a> {
    text: &'a str,
    /// The text's place among those that aims are given for.
    kind: Option<usize>,
    layout: Layout,
    /// Ours, and each other's.
    times: Vec<f64>,
    /// Ours in rotation beside ours in the regular layout.
    of_regular: Option<f64>,
}

struct Bench {
    texts: Vec<Texts>,
    /// A text of each size, to see how times grow.
    sizes: Vec<Marked>,
    /// Whether a row was printed, and the heading before it.
    begun: bool,
    reasons: Vec<String>,
    growth: Vec<String>,
    report: Report,
}

impl Bench {
    fn new(word: &str) -> Self {
        Bench {
            texts: layouts::texts(),
            sizes: layouts::sizes(),
            begun: false,
            reasons: vec![],
            growth: vec![],
            report: Report::of(word),
        }
    }

    /// Whether a table is asked for; before the first that is, the heading is printed.
    fn begins(&mut self, table: &Table) -> bool {
        let asked = self.report.asks_for(table.name);
        if asked && !self.begun {
            heading();
            self.begun = true;
        }
        asked
    }

    /// Our call beside others, on every text in both layouts, and as the text grows. The sides are ours, then theirs.
    fn table(&mut self, table: &Table, sides: impl for<'a> Fn(&'a [Marked]) -> Vec<Side<'a>>) {
        if !self.begins(table) {
            return;
        }
        for (kind, texts) in self.texts.iter().enumerate() {
            let groups = [(sides(&texts.regular), 1), (sides(&texts.irregular), texts.irregular.len())];
            let [regular, rotation] = table.times(groups);
            let of_regular = rotation[0] / regular[0];
            let (text, kind) = (texts.name, Some(kind));
            let regular = Line { text, kind, layout: Layout::Regular, times: regular, of_regular: None };
            let rotation = Line { text, kind, layout: Layout::Rotation, times: rotation, of_regular: Some(of_regular) };
            table.print(&mut self.report, &regular);
            table.print(&mut self.report, &rotation);
        }
        self.explain(table);
        let growth = growth(&mut sides(&self.sizes)[0], &self.sizes);
        self.grown(table.name, growth);
    }

    /// A line of the second table: our times on texts of each size.
    fn grown(&mut self, name: &str, times: Vec<f64>) {
        let linear = |i: usize| times[0] * self.sizes[i].text.len() as f64 / self.sizes[0].text.len() as f64;
        let worst = (1..times.len()).map(|i| times[i] / linear(i)).fold(0.0, f64::max);
        self.report.test(worst <= LINEAR);
        let times: Vec<String> = times.iter().map(|time| format!("{time:.2}")).collect();
        let worst = if worst <= LINEAR { format!("{worst:.2}") } else { format!("**{worst:.2} MISSED**") };
        self.growth.push(format!("| {name} | {} | {worst} |", times.join(" | ")));
    }

    /// A row of a table on one text, with its place among those that aims are given for, if it has one.
    fn row(&mut self, table: &Table, text: &str, kind: Option<usize>, sides: Vec<Side>) {
        if self.begins(table) {
            let [times] = table.times([(sides, 1)]);
            let line = Line { text, kind, layout: Layout::Regular, times, of_regular: None };
            table.print(&mut self.report, &line);
            self.explain(table);
        }
    }

    fn explain(&mut self, table: &Table) {
        self.reasons.extend(table.reason.map(|reason| format!("- {}: {reason}.", table.name)));
    }

    /// The reasons, the second table, and how many aims were held.
    fn finish(self) -> ExitCode {
        if !self.reasons.is_empty() {
            println!("\nWhy a row has no aim beside the Rust, or one of another kind:\n\n{}", self.reasons.join("\n"));
        }
        if !self.growth.is_empty() {
            let sizes = layouts::SIZES.map(|size| size.to_string()).join(" | ");
            println!("\n| Mixed text: µs at so many bytes | {sizes} | Of linear, ≤ {LINEAR} |");
            println!("|---|--:|--:|--:|--:|--:|\n{}\n", self.growth.join("\n"));
        }
        self.report.finish()
    }
}

impl Table {
    const fn new(name: &'static str, others: &'static [Other]) -> Self {
        Table { name, beyond: None, others, of_regular: None, reason: None }
    }

    /// Ours without the time of what is named.
    const fn beyond(self, beyond: &'static str) -> Self {
        Table { beyond: Some(beyond), ..self }
    }

    const fn of_regular(self, aims: Aims) -> Self {
        Table { of_regular: Some(aims), ..self }
    }

    const fn because(self, reason: &'static str) -> Self {
        Table { reason: Some(reason), ..self }
    }

    /// For each group of sides the time of ours, without what is taken off it, and of each other.
    fn times<const N: usize>(&self, groups: [(Vec<Side>, usize); N]) -> [Vec<f64>; N] {
        times(groups).map(|mut times| {
            if self.beyond.is_some() {
                let taken = times.remove(1);
                times[0] -= taken;
            }
            assert_eq!(times.len(), 1 + self.others.len(), "{}", self.name);
            times
        })
    }

    /// A line; where an aim is given for its text and layout, it is counted as held or missed.
    fn print(&self, report: &mut Report, line: &Line) {
        let beyond = self.beyond.map_or(String::new(), |beyond| format!(", beyond {beyond}"));
        let aim = |aims: Option<Aims>| line.kind.and_then(|kind| aims.map(|aims| aims[kind]));
        let ours = line.times[0];
        let mut cells = vec![String::new(); OTHERS.len()];
        for (other, time) in self.others.iter().zip(&line.times[1..]) {
            cells[other.column] = cell(report, ours / time, &format!(" ({time:.2})"), aim(other.aims(line.layout)));
        }
        let regular = line.of_regular.map_or(String::new(), |ratio| cell(report, ratio, "", aim(self.of_regular)));
        let layout = match line.layout {
            Layout::Regular => "regular",
            Layout::Rotation => "rotation",
        };
        let (name, text, cells) = (self.name, line.text, cells.join(" | "));
        println!("| {name}{beyond} | {text} | {layout} | {ours:.2} | {cells} | {regular} |");
    }
}

/// A ratio, what is said beside it, and its aim.
fn cell(report: &mut Report, ratio: f64, beside: &str, aim: Option<f64>) -> String {
    let digits = if ratio < 0.1 { 4 } else { 3 };
    let Some(aim) = aim else { return format!("{ratio:.digits$}{beside}") };
    report.test(ratio <= aim);
    if ratio <= aim {
        format!("{ratio:.digits$}{beside} ≤ {aim}")
    } else {
        format!("**{ratio:.digits$}{beside} > {aim} MISSED**")
    }
}

/// In microseconds: on each text the best run. The texts go by turns.
fn growth(ours: &mut Side, texts: &[Marked]) -> Vec<f64> {
    let mut best = vec![Duration::MAX; texts.len()];
    for _ in 0..ROUNDS / 4 {
        for (i, best) in best.iter_mut().enumerate() {
            *best = (0..RUNS).map(|_| ours(i)).fold(*best, Duration::min);
        }
    }
    best.into_iter().map(in_micros).collect()
}

/// In microseconds: what each side of each group took. A group has its sides and how many texts they go through. All
/// sides of all groups go by turns, so that a slow spell of the machine meets each of them.
fn times<const N: usize>(groups: [(Vec<Side>, usize); N]) -> [Vec<f64>; N] {
    let mut groups = groups.map(|(sides, texts)| -> Vec<Runs> {
        sides.into_iter().map(|side| Runs { side, times: vec![vec![]; texts], taken: Duration::ZERO }).collect()
    });
    for round in 0..ROUNDS {
        for runs in groups.iter_mut().flatten().filter(|runs| round < FEWEST || runs.taken <= ENOUGH) {
            runs.round();
        }
    }
    groups.map(|group| group.into_iter().map(Runs::time).collect())
}

/// A side, the times of its runs on each text, and how long its rounds took.
struct Runs<'a> {
    side: Side<'a>,
    times: Vec<Vec<Duration>>,
    taken: Duration,
}

impl Runs<'_> {
    fn round(&mut self) {
        let begin = Instant::now();
        for i in 0..RUNS {
            let text = i % self.times.len();
            self.times[text].push((self.side)(text));
        }
        self.taken += begin.elapsed();
    }

    /// In microseconds: on one text the best run, on several the mean over them of the best half of each one's runs.
    fn time(self) -> f64 {
        let texts = self.times.len();
        let best = |mut times: Vec<Duration>| {
            times.sort();
            times.truncate(if texts == 1 { 1 } else { times.len() / 2 });
            in_micros(times.iter().sum()) / times.len() as f64
        };
        self.times.into_iter().map(best).sum::<f64>() / texts as f64
    }
}

fn in_micros(time: Duration) -> f64 {
    time.as_secs_f64() * 1e6
}

/// A side by its function from a text's number.
fn side<'a>(run: impl FnMut(usize) -> Duration + 'a) -> Side<'a> {
    Box::new(run)
}

/// The time of `work` alone: what it returns is freed after the clock is read.
fn timed<T>(work: impl FnOnce() -> T) -> Duration {
    let begin = Instant::now();
    let result = black_box(work());
    let time = begin.elapsed();
    drop(result);
    time
}

/// glibc's `mallopt`. The original's alignments are 960 KB before and after an edit, more than glibc keeps by default:
/// taking fresh pages from the system can be more than half of a run.
mod heap {
    extern "C" {
        fn mallopt(parameter: i32, value: i32) -> i32;
    }

    /// From here on what is freed stays with the process, up to 32 MiB: both sides work in warm memory.
    pub fn keep_what_is_freed() {
        let (trim_threshold, mmap_threshold) = (-1, -3);
        let kept = unsafe { [mallopt(trim_threshold, i32::MAX), mallopt(mmap_threshold, 32 << 20)] };
        assert_eq!(kept, [1, 1], "mallopt takes both");
    }
}

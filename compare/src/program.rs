//! The built program `redact_main`, whose name REDACT_PROGRAM is, and the script that a ringer runs, REDACT_SCRIPT: what
//! they write of a note, text or alignments, beside the Rust original's; what they say; and the status.

use crate::every;
use crate::note::{Note, Offset};
use crate::notes;
use crate::random::Random;
use crate::redact_all::{self, Pair, Redacted};
use crate::refusals::ILL_FORMED;
use crate::samples::{self, FILLERS};
use crate::tally::{self, hex, Report, Tally};
use crate::texts::{self, LIMIT};
use regex::Regex;
use std::ffi::OsStr;
use std::fs;
use std::io::Write;
use std::os::unix::ffi::OsStrExt;
use std::path::PathBuf;
use std::process::{Command, Output, Stdio};
use std::str::from_utf8;
use std::sync::OnceLock;

pub fn compare(report: &mut Report) {
    report.call("the program redact, text and alignments", "NormalizedString::from and replace", |tally| {
        worked_notes(tally);
        every_short_text(tally);
        two_literals(tally);
        several_literals(tally);
        any_texts(tally);
        refused_texts(tally);
        literals_that_are_not_spelt(tally);
        wrong_use(tally);
    });
    report.call("the program redact, names from a file", "the same pairs as words", |tally| {
        every_names_file(tally);
        names_files(tally);
        long_names(tally);
        bad_names_files(tally);
    });
    report.call("the program redact, invisible characters", "char, and a regular expression", invisible_characters);
}

/// What is run: the program has no status of its own.
#[derive(Clone, Copy, Debug, PartialEq, Eq)]
enum What {
    Program,
    Script,
}

/// What is asked for.
#[derive(Clone, Copy, Debug)]
struct Asked {
    what: What,
    alignments: bool,
    anyway: bool,
}

/// Where the pairs come from.
enum Source<'a> {
    Words(&'a [&'a [u8]]),
    File(&'a [u8]),
}

const TEXT: Asked = Asked { what: What::Script, alignments: false, anyway: false };

/// A variable that the script `run` sets.
pub fn variable(name: &str) -> String {
    std::env::var(name).unwrap_or_else(|_| panic!("{name} is not set: run with compare/run"))
}

/// The names file that the runs read.
fn names_file() -> PathBuf {
    std::env::temp_dir().join(format!("zulmyren-names-{}", std::process::id()))
}

impl Asked {
    /// The words before the pairs.
    fn options(&self, names: bool) -> Vec<&'static str> {
        match self.what {
            What::Program => {
                let output = if self.alignments { "alignments" } else { "text" };
                let mode = if self.anyway { "anyway" } else { "strict" };
                vec![output, mode, if names { "names" } else { "pairs" }]
            }
            What::Script => {
                let mut options = vec![];
                options.extend(self.alignments.then_some("--alignments"));
                options.extend(self.anyway.then_some("--anyway"));
                options.push(if names { "--names" } else { "--" });
                options
            }
        }
    }

    fn run(&self, text: &[u8], source: &Source) -> Output {
        let names = matches!(source, Source::File(_));
        let mut words: Vec<&[u8]> = self.options(names).into_iter().map(str::as_bytes).collect();
        let file = names_file();
        match source {
            Source::Words(pairs) => words.extend(*pairs),
            Source::File(bytes) => {
                fs::write(&file, bytes).unwrap_or_else(|error| panic!("{}: {error}", file.display()));
                words.push(file.as_os_str().as_bytes());
            }
        }
        let output = run(self.what, text, &words);
        if names {
            fs::remove_file(&file).unwrap_or_else(|error| panic!("{}: {error}", file.display()));
        }
        output
    }
}

fn run(what: What, text: &[u8], words: &[&[u8]]) -> Output {
    let program = variable(if what == What::Script { "REDACT_SCRIPT" } else { "REDACT_PROGRAM" });
    let mut command = Command::new(&program);
    command.args(words.iter().map(|word| OsStr::from_bytes(word)));
    command.stdin(Stdio::piped()).stdout(Stdio::piped()).stderr(Stdio::piped());
    let mut started = command.spawn().unwrap_or_else(|error| panic!("{program}: {error}"));
    // The program reads the whole note before it writes. Where it reads no more, the pipe breaks.
    let _ = started.stdin.take().expect("a piped input").write_all(text);
    started.wait_with_output().unwrap_or_else(|error| panic!("{program}: {error}"))
}

/// One line for each run of bytes with one alignment: first byte, count, transcript start, transcript end.
fn lines(note: &Note) -> String {
    let alignments: Vec<(Offset, Offset)> = note.alignments().collect();
    let mut first = 0;
    let mut line = |run: &[(Offset, Offset)]| {
        let line = format!("{first}\t{}\t{}\t{}\n", run.len(), run[0].0, run[0].1);
        first += run.len();
        line
    };
    alignments.chunk_by(|one, next| one == next).map(&mut line).collect()
}

/// The first character of RULES 14.10, by the properties that `char` and `regex` have, and where it is.
fn invisible(literal: &str) -> Option<(usize, char)> {
    static IGNORABLE: OnceLock<Regex> = OnceLock::new();
    let ignorable =
        IGNORABLE.get_or_init(|| Regex::new(r"^\p{Default_Ignorable_Code_Point}$").expect("a property of Unicode"));
    literal.char_indices().find(|(_, character)| {
        let blank = character.is_whitespace() && *character != ' ';
        blank || character.is_control() || ignorable.is_match(character.encode_utf8(&mut [0; 4]))
    })
}

fn times(count: u32) -> String {
    if count == 1 {
        "1 time".into()
    } else {
        format!("{count} times")
    }
}

/// What is said of the literals and fillers, by their numbers.
fn said_of(redacted: &Redacted, pairs: &[Pair]) -> Vec<String> {
    let blanked = redacted.blanked.iter().zip(pairs).enumerate().map(|(i, (&count, [literal, _]))| match count {
        0 if literal.is_empty() => format!("not found: literal {}, which is empty", i + 1),
        0 => match invisible(literal) {
            None => format!("not found: literal {}", i + 1),
            Some((at, character)) => format!(
                "not found: literal {}, which has the invisible character U+{:04X} at byte {at}",
                i + 1,
                u32::from(character)
            ),
        },
        _ => format!("blanked {}: literal {}", times(count), i + 1),
    });
    let found = |counts: &[u32], words: &str| -> Vec<String> {
        let some = counts.iter().enumerate().filter(|(_, &count)| count > 0);
        some.map(|(i, &count)| format!("{words}: literal {}, {}", i + 1, times(count))).collect()
    };
    blanked.chain(found(&redacted.left, "still there")).chain(found(&redacted.fillers, "filler in the note")).collect()
}

/// What is to be written, the lines that are said, each to its last byte or, with "...", its beginning; and the status.
struct Wanted {
    refusal: u32,
    written: Vec<u8>,
    said: Vec<String>,
    status: i32,
}

impl Wanted {
    fn refused(refusal: u32) -> Self {
        Wanted { refusal, written: vec![], said: vec![format!("refused {refusal} ...")], status: 1 }
    }

    /// What the Rust original makes, each literal in what the one before left.
    fn of(text: &[u8], words: &[&[u8]], asked: Asked) -> Self {
        let Ok(words) = words.iter().map(|word| from_utf8(word)).collect::<Result<Vec<&str>, _>>() else {
            return Wanted::refused(ILL_FORMED);
        };
        let pairs: Vec<Pair> = words.chunks(2).map(|pair| [pair[0], pair[1]]).collect();
        let redacted = notes::expected_from_text(text).and_then(|note| redact_all::redacted(&note, &pairs));
        match redacted {
            Err(refusal) => Wanted::refused(refusal),
            Ok(redacted) => Wanted::published(&redacted, &pairs, asked),
        }
    }

    fn published(redacted: &Redacted, pairs: &[Pair], asked: Asked) -> Self {
        let mut said = said_of(redacted, pairs);
        let found = |counts: &[u32]| counts.iter().any(|&count| count > 0);
        let clean = !redacted.blanked.contains(&0) && !found(&redacted.left) && !found(&redacted.fillers);
        if !clean && !asked.anyway {
            said.push("nothing written: ...".into());
            return Wanted { refusal: 0, written: vec![], said, status: 3 };
        }
        said.extend((!clean).then(|| "let pass: ...".to_owned()));
        let written = if asked.alignments {
            said.push("written: ...".into());
            lines(&redacted.note).into_bytes()
        } else {
            said.push(format!("written: {} bytes", redacted.note.normalized.len()));
            redacted.note.normalized.clone()
        };
        Wanted { refusal: 0, written, said, status: 0 }
    }

    /// The program has no status of its own.
    fn judge(&self, tally: &mut Tally, asked: Asked, printed: &Output, describe: impl FnOnce() -> String) {
        let said = String::from_utf8_lossy(&printed.stderr);
        let lines: Vec<&str> = said.split_terminator('\n').collect();
        let like = |(line, wanted): (&&str, &String)| match wanted.strip_suffix("...") {
            Some(beginning) => line.starts_with(beginning),
            None => line == wanted,
        };
        let status = if asked.what == What::Script { self.status } else { 0 };
        let answered = printed.stdout == self.written
            && lines.len() == self.said.len()
            && lines.iter().zip(&self.said).all(like)
            && said.ends_with('\n')
            && printed.status.code() == Some(status);
        let answer = match self.status {
            3 => "nothing written",
            1 if self.refusal == 0 => "names not taken",
            _ => tally::refusal(self.refusal),
        };
        tally.case(answer, !answered, || {
            let (stdout, written, code) = (hex(&printed.stdout), hex(&self.written), printed.status.code());
            format!(
                "writes {stdout}, says {said:?}, status {code:?}; wanted {written}, {:?}, {status}; {asked:?}, {}",
                self.said,
                describe()
            )
        });
    }
}

fn publish_so(tally: &mut Tally, asked: Asked, text: &[u8], words: &[&[u8]]) {
    let wanted = Wanted::of(text, words, asked);
    wanted.judge(tally, asked, &asked.run(text, &Source::Words(words)), || {
        let words: Vec<String> = words.iter().map(|word| hex(word)).collect();
        format!("{words:?} in {}", hex(text))
    });
}

/// Text and alignments, with and without `anyway`.
fn publish(tally: &mut Tally, what: What, text: &[u8], words: &[&[u8]]) {
    for (alignments, anyway) in [(false, false), (true, false), (false, true), (true, true)] {
        publish_so(tally, Asked { what, alignments, anyway }, text, words);
    }
}

fn bytes<'a>(pairs: &[Pair<'a>]) -> Vec<&'a [u8]> {
    pairs.concat().into_iter().map(str::as_bytes).collect()
}

/// The lines are written down here, and the script writes them.
fn worked_notes(tally: &mut Tally) {
    tally.family("worked notes, by the script, in each of its ways to be asked");
    let nest = "0\t1\t0\t1\n1\t1\t1\t2\n2\t1\t2\t3\n3\t1\t3\t4\n4\t1\t4\t5\n5\t2\t6\t7\n";
    let worked: [(&str, &[Pair], &str, &str, i32); 6] = [
        ("nest 12", &[["12", "**"]], "nest **", nest, 0),
        ("é12", &[["12", "#"], ["é", ""]], "#", "0\t1\t3\t4\n", 0),
        ("aé", &[["é", "xy"], ["y", "z"]], "axz", "0\t1\t0\t1\n1\t2\t1\t3\n", 0),
        ("é", &[["", "x"]], "", "", 3),
        ("", &[["a", "x"]], "", "", 3),
        ("aab", &[["ab", "b"]], "", "", 3),
    ];
    for (text, pairs, published, alignments, status) in worked {
        let words = bytes(pairs);
        publish(tally, What::Script, text.as_bytes(), &words);
        let last: Vec<&[u8]> = words.iter().copied().chain([&b"alignments"[..]]).collect();
        let option: Vec<&[u8]> = [&b"--alignments"[..]].into_iter().chain(words.iter().copied()).collect();
        for (words, written) in [(&words, published), (&last, alignments), (&option, alignments)] {
            let output = run(What::Script, text.as_bytes(), words);
            let differs = output.stdout != written.as_bytes() || output.status.code() != Some(status);
            tally.case("as written down", differs, || {
                format!("wanted {written:?}, {status}, writes {}, {:?}", hex(&output.stdout), output.status.code())
            });
        }
    }
}

fn every_short_text(tally: &mut Tally) {
    tally.family("every text of up to 3 characters out of a, b and é, every literal of up to 1, five fillers");
    for text in every::strings(3) {
        for literal in every::strings(1) {
            for filler in FILLERS {
                publish(tally, What::Program, text.as_bytes(), &bytes(&[[&literal, filler]]));
            }
        }
    }
}

fn two_literals(tally: &mut Tally) {
    tally.family("four texts, two literals of up to 1 character out of a, b and é, three fillers each");
    for text in ["", "ab", "éaéb", "bba"] {
        for first in every::strings(1) {
            for second in every::strings(1) {
                for [one, other] in [["", "a"], ["a", "é"], ["ab", ""]] {
                    publish(tally, What::Program, text.as_bytes(), &bytes(&[[&first, one], [&second, other]]));
                }
            }
        }
    }
}

/// An argument of a program ends at its first zero byte.
fn some_pairs(text: &str, random: &mut Random) -> Vec<(String, &'static str)> {
    let pairs = 1 + random.below(5);
    let pair = |_| {
        let at = texts::any_boundary(text, random);
        let out_of_it = text[at..].chars().take(random.below(4)).filter(|&character| character != '\0').collect();
        let literal = if random.below(6) == 0 { "x".to_owned() } else { out_of_it };
        (literal, *random.choose(&["", "[1]", "é*", "日x", "#"]))
    };
    (0..pairs).map(pair).collect()
}

fn several_literals(tally: &mut Tally) {
    tally.family("any text to 400 bytes, one to five literals out of it or not, five fillers, by the script");
    let mut random = Random::new(49);
    for turn in 0..100 {
        let (text, _) = samples::text_and_literal(turn * 20 + 1, &mut random);
        let pairs = some_pairs(&text, &mut random);
        let words: Vec<&[u8]> = pairs.iter().flat_map(|(one, other)| [one.as_bytes(), other.as_bytes()]).collect();
        publish(tally, What::Script, text.as_bytes(), &words);
    }
}

fn any_texts(tally: &mut Tally) {
    tally.family("any text up to the limit, literals out of it, five fillers");
    let mut random = Random::new(48);
    for turn in 0..300 {
        let (text, literal) = samples::text_and_literal(turn, &mut random);
        let literal = literal.replace('\0', "");
        let filler = *random.choose(&FILLERS);
        publish(tally, What::Program, text.as_bytes(), &bytes(&[[&literal, filler]]));
    }
}

fn refused_texts(tally: &mut Tally) {
    tally
        .family("strings that are not well-formed, texts at the limit and longer, steps past the limit, by the script");
    for text in [&b"a"[..], b"\xC3"] {
        for literal in [&b"a"[..], b"\xFF"] {
            for filler in [&b"x"[..], b"x\xC3"] {
                publish(tally, What::Script, text, &[literal, filler]);
                publish(tally, What::Script, text, &[b"a", b"b", literal, filler]);
            }
        }
    }
    for len in [LIMIT - 1, LIMIT, LIMIT + 1, LIMIT + 2, 200_000] {
        for unit in ["a", "é", "漢"] {
            let text = texts::repeated(unit, len);
            for [literal, filler] in [["x", "y"], ["é", "*"], ["漢", "****"], ["b", "\u{FFFD}"]] {
                publish_so(tally, TEXT, text.as_bytes(), &bytes(&[[literal, filler]]));
                let asked = Asked { anyway: true, ..TEXT };
                publish_so(tally, asked, text.as_bytes(), &bytes(&[[literal, filler], ["*", "**"]]));
            }
        }
    }
}

/// Words of the program's own lines, line breaks and characters that are not seen: no literal passes for a status.
fn literals_that_are_not_spelt(tally: &mut Tally) {
    tally.family("literals with the program's own words, line breaks, controls and marks of direction, by the script");
    let literals = [
        "refused 1 torn: ",
        "\nrefused 9 no room: x",
        "x\nblanked 1 time: literal 1",
        "blanked 2 times: literal 1",
        "\nwritten: 3 bytes",
        "\nnothing written: x",
        "usage: ",
        "a\tb",
        "\u{1b}[2J",
        "\u{9b}2J",
        "\u{a0}",
        "\u{202e}abc",
        "\u{2066}",
        "\u{200b}",
        "’",
        "…",
        "\u{205e}",
        "\u{2070}",
        "--help",
        "--anyway",
        "alignments",
        "-n",
        "\\x",
        "Jo\u{ad}sé\u{feff}",
    ];
    for literal in literals {
        for text in ["nothing of it", literal] {
            publish(tally, What::Script, text.as_bytes(), &bytes(&[[literal, "#"]]));
        }
    }
}

fn wrong_use(tally: &mut Tally) {
    tally.family("arguments that are too few, odd or other ones");
    let pairs: [&[&[u8]]; 7] = [
        &[],
        &[b"text"],
        &[b"text", b"strict", b"pairs"],
        &[b"text", b"strict", b"pairs", b"a"],
        &[b"text", b"strict", b"pairs", b"a", b"b", b"alignments"],
        &[b"text", b"Strict", b"pairs", b"a", b"b"],
        &[b"text", b"strict", b"names", b"a", b"b"],
    ];
    let script: [&[&[u8]]; 7] = [
        &[],
        &[b"a"],
        &[b"alignments"],
        &[b"a", b"b", b"c"],
        &[b"a", b"b", b"Alignments"],
        &[b""],
        &[b"--", b"a", b"b", b"alignments"],
    ];
    for (what, all, beginning, status) in
        [(What::Program, pairs, "usage: redact_main ", 0), (What::Script, script, "redact: ", 2)]
    {
        for words in all {
            let printed = run(what, b"a", words);
            let said = String::from_utf8_lossy(&printed.stderr);
            let answered = printed.stdout.is_empty() && said.starts_with(beginning) && said.contains("usage: redact");
            tally.case("usage", !answered || printed.status.code() != Some(status), || {
                format!("{what:?} {words:?} says {said}")
            });
        }
    }
}

/// The most bytes of a names file (docs/RULES.md 14.8), and of all words on the command line together.
const LONGEST_NAMES: usize = 262_143;
const LONGEST_WORDS: usize = 262_144;

/// The pair of a line, or why it is bad.
fn pair_of(line: &[u8]) -> Result<Pair<'_>, &'static str> {
    let line = from_utf8(line).map_err(|_| "it is not UTF-8")?;
    match line.split('\t').collect::<Vec<&str>>()[..] {
        [_] => Err("it has no tab"),
        ["", _] => Err("it has no literal"),
        [literal, filler] => Ok([literal, filler]),
        _ => Err("it has more than one tab"),
    }
}

/// The pairs of a names file, judged a second time; or what is said of its first bad line.
fn names(file: &[u8]) -> Result<Vec<Pair<'_>>, String> {
    if file.is_empty() || file.len() > LONGEST_NAMES {
        return Err("redact: the names file...".into());
    }
    let mut pairs = vec![];
    for (i, line) in file.split_inclusive(|&byte| byte == b'\n').enumerate() {
        // A CR belongs to the line end where an LF comes after it.
        let line = line.strip_suffix(b"\r\n").or(line.strip_suffix(b"\n")).unwrap_or(line);
        pairs.push(pair_of(line).map_err(|why| format!("refused line {}: {why}...", i + 1))?);
    }
    Ok(pairs)
}

/// One names file, for the text and, with `anyway`, for the alignments.
fn by_file(tally: &mut Tally, what: What, text: &[u8], file: &[u8]) {
    for (alignments, anyway) in [(false, false), (true, true)] {
        let asked = Asked { what, alignments, anyway };
        let wanted = match names(file) {
            Ok(pairs) => Wanted::of(text, &bytes(&pairs), asked),
            Err(said) => Wanted { refusal: 0, written: vec![], said: vec![said], status: 1 },
        };
        let printed = asked.run(text, &Source::File(file));
        wanted.judge(tally, asked, &printed, || format!("names {} in {}", hex(file), hex(text)));
    }
}

/// A names file of these pairs, with each line end, and with none after the last line.
fn by_name(tally: &mut Tally, what: What, text: &str, pairs: &[Pair]) {
    let with =
        |end: &str| -> String { pairs.iter().map(|[literal, filler]| format!("{literal}\t{filler}{end}")).collect() };
    let (ended, ended_twice) = (with("\n"), with("\r\n"));
    for file in [&ended, &ended_twice, ended.trim_end_matches('\n')] {
        by_file(tally, what, text.as_bytes(), file.as_bytes());
    }
}

fn every_names_file(tally: &mut Tally) {
    tally.family("every file of up to 5 bytes out of a, tab, LF and CR, and of up to 4 with bytes of no character");
    for file in every::texts(b"a\t\n\r", 5).iter().chain(&every::texts(b"a\t\n\xC3\xA9", 4)) {
        by_file(tally, What::Program, b"aa\ra", file);
    }
}

fn names_files(tally: &mut Tally) {
    tally.family("worked lists and any pairs, lines that end with LF, with CR LF, and the last one with the file");
    let worked: [(&str, &[Pair]); 6] = [
        ("José, nest 12", &[["José", "[f]"], ["nest 12", "[n]"]]),
        ("José, nest 12", &[["Jose", "[f]"], ["nest 12", ""]]),
        ("a -- b", &[["--", "-"], ["-", "--"]]),
        ("a b", &[["a", "\u{feff}"], ["\u{feff}", "x"]]),
        ("a\0b", &[["\0", "#"]]),
        ("a \"b\" 'c'", &[["\"b\"", "'"], ["'c'", "\\"]]),
    ];
    for (text, pairs) in worked {
        by_name(tally, What::Script, text, pairs);
    }
    let mut random = Random::new(50);
    let plain = |word: &str| word.replace(['\t', '\n', '\r'], "");
    for turn in 0..200 {
        let (text, _) = samples::text_and_literal(turn + 1, &mut random);
        let pairs = some_pairs(&text, &mut random);
        let pairs: Vec<[String; 2]> = pairs.iter().map(|(literal, filler)| [plain(literal), plain(filler)]).collect();
        let pairs: Vec<Pair> = pairs.iter().map(|[literal, filler]| [literal.as_str(), filler]).collect();
        by_name(tally, if turn % 4 == 0 { What::Script } else { What::Program }, &text, &pairs);
    }
}

/// One long filler, and many lines.
fn long_names(tally: &mut Tally) {
    tally.family("files and words about the longest that are taken, of one line or pair and of many");
    for len in LONGEST_NAMES - 1..=LONGEST_NAMES + 2 {
        let filler = "x".repeat(len - 3);
        by_file(tally, What::Script, b"a b", format!("a\t{filler}\n").as_bytes());
        by_file(tally, What::Script, b"a b", format!("q\t{filler}\n").as_bytes());
        let line = "b\t\n".repeat(1_000);
        by_file(tally, What::Program, b"a b", format!("a\t{}\n{line}", &filler[line.len()..]).as_bytes());
    }
    // An argument has at most 131,071 bytes.
    for len in LONGEST_WORDS - 1..=LONGEST_WORDS + 1 {
        let words = ["q".repeat(131_000), "x".repeat(131_000), "b".into(), "y".repeat(len - 262_001)];
        let words: Vec<&[u8]> = words.iter().map(|word| word.as_bytes()).collect();
        let asked = Asked { anyway: true, ..TEXT };
        let wanted = match len > LONGEST_WORDS {
            true => Wanted { refusal: 0, written: vec![], said: vec!["redact: ...".into()], status: 1 },
            false => Wanted::of(b"a b", &words, asked),
        };
        wanted.judge(tally, asked, &asked.run(b"a b", &Source::Words(&words)), || format!("{len} bytes of words"));
    }
}

/// What is said is written down here.
fn bad_names_files(tally: &mut Tally) {
    tally.family("files with a bad line, empty, too long, or not there, by the script");
    let long = "a\tb\n".repeat(131_073);
    let bad: [(&[u8], &str); 17] = [
        (b"a\tb\nc\n", "refused line 2: it has no tab..."),
        (b"a\n", "refused line 1: it has no tab..."),
        (b"a", "refused line 1: it has no tab..."),
        (b"a\tb\tc\n", "refused line 1: it has more than one tab..."),
        (b"a\tb\nc\td\t\n", "refused line 2: it has more than one tab..."),
        (b"a\tb\n\tc\n", "refused line 2: it has no literal..."),
        (b"\t\n", "refused line 1: it has no literal..."),
        (b"a\tb\n\n", "refused line 2: it has no tab..."),
        (b"\na\tb\n", "refused line 1: it has no tab..."),
        (b"a\tb\n\r\n", "refused line 2: it has no tab..."),
        (b"a\tb\n\xFF\tc\n", "refused line 2: it is not UTF-8..."),
        (b"a\t\xC3\nb\n", "refused line 1: it is not UTF-8..."),
        (b"a\tb\nc\t\xE2\x82\n", "refused line 2: it is not UTF-8..."),
        (b"a\tb\nc\td\ne", "refused line 3: it has no tab..."),
        (b"a\tb\n\0\n", "refused line 2: it has no tab..."),
        (b"", "redact: the names file..."),
        (long.as_bytes(), "redact: the names file..."),
    ];
    for (file, said) in bad {
        for anyway in [false, true] {
            let asked = Asked { anyway, ..TEXT };
            let wanted = Wanted { refusal: 0, written: vec![], said: vec![said.into()], status: 1 };
            wanted.judge(tally, asked, &asked.run(b"a b c", &Source::File(file)), || hex(file));
        }
    }
    let missing = names_file();
    for name in [missing.as_os_str().as_bytes(), b"/", b""] {
        let wanted = Wanted { refusal: 0, written: vec![], said: vec!["redact: ...".into()], status: 1 };
        let printed = run(What::Script, b"a", &[b"--names", name]);
        wanted.judge(tally, TEXT, &printed, || format!("no file {}", hex(name)));
    }
}

/// Each is in a literal that is not found; thousands of literals in a run.
fn invisible_characters(tally: &mut Tally) {
    tally.family("each character to U+FFFF, to U+1FFFF where one may be invisible, and of plane 14, in a literal");
    let near = (0x1_BC90..0x1_BCB0).chain(0x1_D160..0x1_D190).chain([0x1_0000, 0x1_FFFF, 0x10_FFFF]);
    let characters = (1..=0xFFFF).chain(near).chain(0xD_FF00..=0xE_1100).filter_map(char::from_u32);
    let literals: Vec<String> = characters.map(|character| format!("é{character}")).collect();
    let asked = Asked { what: What::Program, ..TEXT };
    for literals in literals.chunks(2_000) {
        let pairs: Vec<Pair> = literals.iter().map(|literal| [literal.as_str(), "#"]).collect();
        let printed = asked.run(b"nothing", &Source::Words(&bytes(&pairs)));
        let wanted = Wanted::of(b"nothing", &bytes(&pairs), asked);
        let said = String::from_utf8_lossy(&printed.stderr);
        let lines: Vec<&str> = said.lines().collect();
        for (i, literal) in literals.iter().enumerate() {
            let (line, wanted) = (lines.get(i).copied().unwrap_or("nothing"), &wanted.said[i]);
            let answer = if wanted.contains("invisible") { "invisible" } else { "not found" };
            tally.case(answer, line != wanted, || format!("says {line:?}, wanted {wanted:?}, of {literal:?}"));
        }
    }
}

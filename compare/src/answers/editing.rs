//! The answers of the eight edits.

use super::calls::{faulty_notes, fresh, notes};
use crate::edits::{bytes, Change, Edit};
use crate::every;
use crate::list::{Answers, Replayed};
use crate::note::Note;
use crate::refusals::NO_ROOM;
use crate::samples::sound_notes;
use crate::texts::LIMIT;
use std::str::from_utf8;
use tokenizers::NormalizedString;
use Edit::{Append, Clear, Filter, Lowercase, Map, Prepend, Transform, TransformRange};

pub fn answers() -> [Answers; 8] {
    [
        ranges(),
        scripts(),
        codes(),
        flags(),
        strings(Replayed::Append, Append),
        strings(Replayed::Prepend, Prepend),
        cleared(),
        lowercased(),
    ]
}

/// A note, what the call is passed beside it, the passed text, starts and ends; the refusal, the sizes (how long the
/// cleaned text was, which `clear` alone answers, and how long it is), the three buffers.
fn edit(answers: &mut Answers, note: &Note, edit: &Edit, rooms: fn(usize) -> [usize; 3]) {
    let expected = edit.expected(note);
    let len = expected.as_ref().map_or(3, |made| made.note.normalized.len());
    let room = rooms(len);
    let (refusal, before, left) = match expected {
        Err(refusal) => (refusal, 0, Note::default()),
        Ok(_) if room.iter().any(|&room| room < len) => (NO_ROOM, 0, Note::default()),
        Ok(made) => (0, made.before, made.note),
    };
    answers.answer().note(note);
    match edit {
        TransformRange((of_original, start, end), script, offset) => {
            answers.number((*of_original).into()).number(*start).number(*end).text(script).number(*offset)
        }
        Transform(script, offset) => answers.text(script).number(*offset),
        Map(codes) => answers.numbers(codes),
        Filter(bytes) | Append(bytes) | Prepend(bytes) => answers.text(bytes),
        Clear | Lowercase => answers,
    };
    answers.passed_text(room[0]).passed_column(room[1]).passed_column(room[2]).number(refusal);
    if let Clear = edit {
        answers.number(before as u32);
    }
    answers.number(left.normalized.len() as u32).left_text(room[0], &left.normalized);
    answers.left_column(room[1], &left.starts).left_column(room[2], &left.ends);
}

fn ample(len: usize) -> [usize; 3] {
    [len + 2, len, len + 1]
}

/// Just large enough, none, and short by one in each in turn.
const ROOMS: [fn(usize) -> [usize; 3]; 5] = [
    |len| [len; 3],
    |_| [0; 3],
    |len| [len.saturating_sub(1), len, len],
    |len| [len, len.saturating_sub(1), len],
    |len| [len, len, len.saturating_sub(1)],
];

/// Fresh and edited notes, some with a shift; notes whose first character has no width, which is before the whole
/// transcript's range; notes without a cleaned text, and without a transcript.
fn samples() -> Vec<Note> {
    let made = |text: &str, edit: fn(&mut NormalizedString)| {
        let mut note = NormalizedString::from(text);
        edit(&mut note);
        Note::from(&note)
    };
    let mut shifted = notes();
    for (note, shift) in shifted.iter_mut().zip([0, 7, 0, 65_000]) {
        note.original_shift = shift;
    }
    let mut samples = shifted.to_vec();
    samples.push(made("aéb", |note| _ = note.prepend("")));
    samples.push(made("éa", |note| _ = note.prepend("").append("x")));
    samples.push(made("é", |note| _ = note.clear()));
    samples.extend([fresh(""), made("", |note| _ = note.append("xé"))]);
    samples
}

fn characters(note: &Note) -> usize {
    from_utf8(&note.normalized).expect("a sound note").chars().count()
}

const SCRIPTS: [&[Change]; 7] = [
    &[],
    &[('é', 0)],
    &[('x', 1), ('日', 0)],
    &[('x', -1)],
    &[('é', 0), ('y', -1), ('z', 1)],
    &[('x', 0), ('y', 0), ('z', 0)],
    &[('😀', -2), ('z', 1)],
];

/// Scripts that are broken: a command that is none, operands that are cut, code points that are no scalar value, a
/// removal of nothing, and a sound command before each.
fn broken() -> Vec<Vec<u8>> {
    let code = |code: u32| [&[1][..], &code.to_le_bytes()].concat();
    let broken = [
        vec![0],
        vec![4],
        vec![1],
        vec![2, b'x', 0, 0],
        vec![3, b'x', 0, 0, 0, 1],
        vec![3, b'x', 0, 0, 0, 0, 0],
        code(0xD800),
        code(0xDFFF),
        code(0x11_0000),
    ];
    let sound = bytes(&[('x', 0)]);
    broken.iter().cloned().chain([[&sound[..], &broken[1]].concat(), [&sound[..], &broken[6]].concat()]).collect()
}

/// A note as long as a text can be.
fn longest() -> Note {
    fresh(&"a".repeat(LIMIT))
}

fn ranges() -> Answers {
    let mut answers = Answers::new(Replayed::TransformRange);
    let named = [(0, 4), (1, 3), (0, 1), (1, 1), (2, 4), (3, 1), (0, 9), (4, 4)];
    for (i, note) in samples().iter().enumerate() {
        for (j, script) in SCRIPTS.iter().enumerate() {
            for of_original in [false, true] {
                let (start, end) = named[(3 * i + j + usize::from(of_original)) % named.len()];
                let offset = [0, 0, 1, u32::MAX][(i + j) % 4];
                let asked = TransformRange((of_original, start, end), bytes(script), offset);
                edit(&mut answers, note, &asked, ample);
            }
        }
    }
    let [first, ..] = notes();
    for (start, end) in every::pair(4) {
        edit(&mut answers, &first, &TransformRange((start < 2, start as u32, end as u32), vec![], 0), |len| [len; 3]);
    }
    for rooms in ROOMS {
        edit(&mut answers, &first, &TransformRange((true, 0, 4), bytes(SCRIPTS[4]), 0), rooms);
    }
    for script in broken() {
        edit(&mut answers, &first, &TransformRange((false, 2, 9), script, 0), ample);
    }
    for note in faulty_notes() {
        edit(&mut answers, &note, &TransformRange((false, 2, 9), vec![9], 0), ample);
    }
    for script in [&[('x', 1)][..], &[('x', 0)], &[('é', 0)]] {
        edit(&mut answers, &longest(), &TransformRange((true, 0, 1), bytes(script), 0), |_| [LIMIT + 1; 3]);
    }
    answers
}

fn scripts() -> Answers {
    let mut answers = Answers::new(Replayed::Transform);
    for note in samples() {
        for script in SCRIPTS {
            for offset in [0, 1] {
                edit(&mut answers, &note, &Transform(bytes(script), offset), ample);
            }
        }
    }
    let [first, ..] = notes();
    for offset in [2, 3, 4, u32::MAX] {
        edit(&mut answers, &first, &Transform(bytes(SCRIPTS[1]), offset), ample);
    }
    for rooms in ROOMS {
        edit(&mut answers, &first, &Transform(bytes(SCRIPTS[2]), 1), rooms);
    }
    for script in broken() {
        edit(&mut answers, &first, &Transform(script, 9), ample);
    }
    for note in faulty_notes() {
        edit(&mut answers, &note, &Transform(vec![1], 0), ample);
    }
    answers
}

fn codes() -> Answers {
    let mut answers = Answers::new(Replayed::Map);
    let codes = ['x', 'é', '日', '😀', '\u{10FFFF}', '\0'].map(u32::from);
    let given = |len: usize, from: usize| (0..len).map(|i| codes[(from + i) % codes.len()]).collect::<Vec<u32>>();
    for note in samples() {
        let len = characters(&note);
        for from in 0..5 {
            edit(&mut answers, &note, &Map(given(len, from)), ample);
        }
        edit(&mut answers, &note, &Map(given(len + 1, 0)), ample);
        edit(&mut answers, &note, &Map(given(len.saturating_sub(1), 0)), ample);
    }
    let [first, ..] = notes();
    for rooms in ROOMS {
        edit(&mut answers, &first, &Map(given(3, 1)), rooms);
    }
    for wrong in [0xD800, 0xDFFF, 0x11_0000, u32::MAX] {
        for len in 1..4 {
            edit(&mut answers, &first, &Map([given(len, 0), vec![wrong]].concat()), ample);
        }
    }
    for note in faulty_notes() {
        edit(&mut answers, &note, &Map(vec![0xD800]), ample);
    }
    let blocks = fresh(&"aé".repeat(100));
    edit(&mut answers, &blocks, &Map(vec!['é'.into(); 200]), ample);
    answers
}

fn flags() -> Answers {
    let mut answers = Answers::new(Replayed::Filter);
    for note in samples() {
        let len = characters(&note);
        for flags in every::list(&[0, 1], len.min(4)) {
            edit(&mut answers, &note, &Filter([flags, vec![255; len - len.min(4)]].concat()), ample);
        }
        edit(&mut answers, &note, &Filter(vec![1; len + 1]), ample);
        edit(&mut answers, &note, &Filter(vec![1; len.saturating_sub(1)]), ample);
    }
    let [first, ..] = notes();
    for rooms in ROOMS {
        edit(&mut answers, &first, &Filter(vec![0, 2, 128]), rooms);
    }
    for note in faulty_notes() {
        edit(&mut answers, &note, &Filter(vec![1; 9]), ample);
    }
    for flags in [vec![1; LIMIT], [vec![0; LIMIT - 1], vec![1]].concat(), vec![0; LIMIT], vec![1; LIMIT + 1]] {
        edit(&mut answers, &longest(), &Filter(flags), |len| [len; 3]);
    }
    answers
}

fn strings(call: Replayed, joined: fn(Vec<u8>) -> Edit) -> Answers {
    let mut answers = Answers::new(call);
    for note in samples() {
        for string in ["", "x", "é", "日x", "x😀é"] {
            edit(&mut answers, &note, &joined(string.into()), ample);
        }
        edit(&mut answers, &note, &joined(b"x\xC3".into()), ample);
    }
    let [first, ..] = notes();
    for rooms in ROOMS {
        edit(&mut answers, &first, &joined("xé".into()), rooms);
        edit(&mut answers, &fresh(""), &joined("xé".into()), rooms);
    }
    for note in faulty_notes() {
        edit(&mut answers, &note, &joined(b"\xFF".into()), ample);
        edit(&mut answers, &note, &joined(vec![]), |_| [0; 3]);
    }
    for string in ["", "x"] {
        edit(&mut answers, &longest(), &joined(string.into()), |_| [LIMIT + 1; 3]);
    }
    for len in [LIMIT - 3, LIMIT - 2] {
        edit(&mut answers, &fresh("abc"), &joined(vec![b'x'; len]), |_| [LIMIT + 1; 3]);
    }
    answers
}

fn cleared() -> Answers {
    let mut answers = Answers::new(Replayed::Clear);
    for note in samples() {
        for rooms in ROOMS.into_iter().chain([ample as fn(usize) -> [usize; 3]]) {
            edit(&mut answers, &note, &Clear, rooms);
        }
    }
    for note in faulty_notes() {
        edit(&mut answers, &note, &Clear, ample);
        edit(&mut answers, &note, &Clear, |_| [0; 3]);
    }
    for (original, normalized) in [("a", "é"), ("é", "ab"), ("ab", "é")] {
        for note in sound_notes(original, normalized) {
            edit(&mut answers, &note, &Clear, ample);
        }
    }
    edit(&mut answers, &longest(), &Clear, |len| [len; 3]);
    answers
}

/// The whole table, letters above it that the Rust changes, U+0130 anywhere and as often as fits and once more, notes
/// whose first alignment is empty, and notes without a transcript.
fn lowercased() -> Answers {
    let mut answers = Answers::new(Replayed::Lowercase);
    let table: String = ('\0'..='\u{17F}').collect();
    let above = "\u{181}\u{391}\u{1E9E}\u{212A}\u{212B}";
    for text in [&table, above, "İAÉ漢😀Ÿ", &"Nest 12, ČÁP ".repeat(20)] {
        edit(&mut answers, &fresh(text), &Lowercase, ample);
    }
    edit(&mut answers, &fresh(&"A".repeat(LIMIT)), &Lowercase, ROOMS[0]);
    for note in samples() {
        edit(&mut answers, &note, &Lowercase, ample);
    }
    for rooms in ROOMS {
        for note in [fresh("AİB"), fresh(""), fresh(&"aİ".repeat(50))] {
            edit(&mut answers, &note, &Lowercase, rooms);
        }
    }
    for note in faulty_notes() {
        edit(&mut answers, &note, &Lowercase, ample);
        edit(&mut answers, &note, &Lowercase, |_| [0; 3]);
    }
    for (original, normalized) in [("", "A"), ("a", "İ"), ("é", "AİB"), ("ab", "Éİ")] {
        for note in sound_notes(original, normalized) {
            edit(&mut answers, &note, &Lowercase, ample);
        }
    }
    for times in [LIMIT / 3, LIMIT / 3 + 1] {
        edit(&mut answers, &fresh(&"İ".repeat(times)), &Lowercase, |_| [LIMIT + 1; 3]);
    }
    answers
}

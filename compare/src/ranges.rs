//! Notes and ranges of their texts: what converting, reading and slicing are compared on.

use crate::every;
use crate::note::{position, Note};
use crate::notes;
use crate::random::Random;
use crate::samples;
use crate::texts::LIMIT;
use tokenizers::normalizer::Range;
use tokenizers::NormalizedString;

/// Far past every text.
pub const FAR: [u32; 4] = [LIMIT as u32, LIMIT as u32 + 1, 1 << 31, u32::MAX];

pub type Bytes = std::ops::Range<usize>;

/// As the Rust original takes it.
pub fn range(of_original: bool, (start, end): (u32, u32)) -> Range<Bytes> {
    let range = start as usize..end as usize;
    if of_original {
        Range::Original(range)
    } else {
        Range::Normalized(range)
    }
}

/// A note as the library takes it and as the Rust original holds it, or the refusal that the second check gives it.
pub struct Sample {
    pub note: Note,
    theirs: Result<NormalizedString, u32>,
}

impl From<NormalizedString> for Sample {
    fn from(note: NormalizedString) -> Self {
        Sample::from(Note::from(&note))
    }
}

impl From<Note> for Sample {
    fn from(note: Note) -> Self {
        let theirs = match note.refusal() {
            0 => Ok(note.of_the_original()),
            refusal => Err(refusal),
        };
        Sample { note, theirs }
    }
}

impl Sample {
    pub fn text(&self, of_original: bool) -> &[u8] {
        if of_original {
            &self.note.original
        } else {
            &self.note.normalized
        }
    }

    pub fn refusal(&self) -> u32 {
        self.theirs().err().unwrap_or(0)
    }

    /// As the Rust original holds it, or the refusal.
    pub fn theirs(&self) -> Result<&NormalizedString, u32> {
        self.theirs.as_ref().map_err(|&refusal| refusal)
    }

    /// An end of a range of one of the texts: anywhere, near what the alignments name, or past it.
    fn any_end(&self, of_original: bool, random: &mut Random) -> u32 {
        let len = self.text(of_original).len();
        let columns = [&self.note.starts, &self.note.ends];
        let near = match *random.choose(&columns) {
            column if of_original && !column.is_empty() => position(*random.choose(column)),
            _ => random.below(len + 1),
        };
        match random.below(10) {
            0 => *random.choose(&FAR),
            1 | 2 => (len + random.below(3)) as u32,
            3 => 0,
            4 | 5 => random.below(len + 1) as u32,
            _ => (near + random.below(3)).saturating_sub(1) as u32,
        }
    }

    /// Mostly from the lower end to the higher.
    pub fn any_range(&self, of_original: bool, random: &mut Random) -> (u32, u32) {
        let one = self.any_end(of_original, random);
        let other = match random.below(3) {
            0 => one.saturating_add(random.below(5) as u32),
            _ => self.any_end(of_original, random),
        };
        match random.below(8) {
            0 => (one, other),
            _ => (one.min(other), one.max(other)),
        }
    }
}

/// Every pair of ends up to `last`, and of these and far ones.
pub fn ranges_to(last: usize) -> Vec<(u32, u32)> {
    let ends: Vec<u32> = (0..=last as u32).chain(FAR).collect();
    ends.iter().flat_map(|&start| ends.iter().map(move |&end| (start, end))).collect()
}

/// Every sound note with texts of up to 4 bytes in characters of one and two bytes, by turns without a shift and with
/// the largest.
pub fn sound_notes() -> impl Iterator<Item = Sample> {
    let texts = |one, two| {
        let mut texts: Vec<String> = every::list(&["", one, two], 4).map(|characters| characters.concat()).collect();
        texts.retain(|text: &String| text.len() <= 4);
        texts.sort();
        texts.dedup();
        texts
    };
    let normalized = texts("b", "ů");
    let pairs = texts("a", "é")
        .into_iter()
        .flat_map(move |original| normalized.clone().into_iter().map(move |normalized| (original.clone(), normalized)));
    let notes = pairs.flat_map(|(original, normalized)| samples::sound_notes(&original, &normalized));
    notes.enumerate().map(|(i, note)| {
        let shift = if i % 2 == 0 { 0 } else { LIMIT - note.original.len() };
        Sample::from(Note { original_shift: shift as u32, ..note })
    })
}

/// `aéb` with every set of faults.
pub fn samples_with_faults() -> impl Iterator<Item = Sample> {
    notes::with_faults().map(|(_, note)| Sample::from(note))
}

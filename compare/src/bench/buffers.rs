//! Buffers for a note that a call publishes or leaves.

use crate::library::Publishing;
use crate::note::{Note, Offset};
use crate::texts::LIMIT;

pub struct Buffers {
    out: Vec<u8>,
    out_starts: Vec<Offset>,
    out_ends: Vec<Offset>,
}

impl Buffers {
    /// Room for any result.
    pub fn new() -> Self {
        Buffers::of(LIMIT)
    }

    pub fn of(len: usize) -> Self {
        let [out_starts, out_ends] = [(); 2].map(|()| vec![0; len]);
        Buffers { out: vec![0; len], out_starts, out_ends }
    }

    pub fn out(&mut self) -> Publishing<'_> {
        Publishing { text: &mut self.out, starts: &mut self.out_starts, ends: &mut self.out_ends }
    }

    /// As many bytes and numbers as a result has.
    pub fn copy(&mut self, result: &Note) {
        let len = result.normalized.len();
        self.out[..len].copy_from_slice(&result.normalized);
        self.out_starts[..len].copy_from_slice(&result.starts);
        self.out_ends[..len].copy_from_slice(&result.ends);
    }

    /// Whether a result is here.
    pub fn hold(&self, result: &Note) -> bool {
        self.out.starts_with(&result.normalized)
            && self.out_starts.starts_with(&result.starts)
            && self.out_ends.starts_with(&result.ends)
    }
}

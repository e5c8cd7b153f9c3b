//! The calls on anything that can be lent, against the plain reading alone: the Rust is lent no matrix.

use super::asked;
use crate::cases::AgainstReading;
use crate::lent_matrices::Sketch;
use crate::lent_matrices::Union;
use crate::listed::Listed;

/// Each call's cases.
pub struct LentCalls {
    split: AgainstReading,
    expand: AgainstReading,
    new: AgainstReading,
    merge: AgainstReading,
}

impl LentCalls {
    pub fn new() -> Self {
        Self {
            split: AgainstReading::new("split, several faults"),
            expand: AgainstReading::new("expand, several faults"),
            new: AgainstReading::new("new_union, several faults"),
            merge: AgainstReading::new("merge, several faults"),
        }
    }

    pub fn finish(self) {
        for cases in [self.split, self.expand, self.new, self.merge] {
            cases.finish();
        }
    }

    pub fn judge_split(&mut self, lg: u8, matrix: &[u64], bytes: usize, room: usize) {
        let (ours, reading) = asked::split(lg, matrix, bytes, room);
        let matrix = Listed::of(matrix);
        let input = format_args!("{lg} {matrix}, window of {bytes}, room {room}");
        self.split.judge(input, ours, reading);
    }

    pub fn judge_expand(&mut self, sketch: &Sketch, length: usize) {
        let (ours, reading) = asked::expand(sketch, length);
        let input = format_args!("{sketch}, matrix of {length}");
        self.expand.judge(input, ours, reading);
    }

    pub fn judge_new(&mut self, lg: u8, seed: u64, length: usize) {
        let (ours, reading) = asked::new_union(lg, seed, length);
        let input = format_args!("{lg} {seed}, matrix of {length}");
        self.new.judge(input, ours, reading);
    }

    pub fn judge_merge(&mut self, union: &Union, source: &Sketch, seed: u64) {
        let (ours, reading) = asked::merge(union, source, seed);
        let input = format_args!("{union}, source {source}, seed {seed}");
        self.merge.judge(input, ours, reading);
    }
}

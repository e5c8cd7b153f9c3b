//! The calls on matrices and unions, each against the Rust.

use datasketches::cpc::CpcSketch;

use super::asked;
use super::inputs::COLUMN_CLASSES;
use super::inputs::COUNT_CLASSES;
use super::inputs::CountInput;
use super::inputs::EXPAND_CLASSES;
use super::inputs::ExpandInput;
use super::inputs::MERGE_CLASSES;
use super::inputs::MergeInput;
use super::inputs::NEW_CLASSES;
use super::inputs::NewInput;
use super::inputs::SPLIT_CLASSES;
use super::inputs::SplitInput;
use super::sources::Source;
use crate::answer::Answer;
use crate::answer::Lent;
use crate::answer::Spoken;
use crate::cases::AgainstRust;
use crate::cases::Kind;
use crate::cases::RustAnswers;
use crate::cases::Sides;
use crate::lent_matrices::LentSplit;
use crate::lent_matrices::Parts;
use crate::lent_matrices::Sketch;
use crate::lent_matrices::SplitMemory;
use crate::lent_matrices::SpokenParts;
use crate::lent_matrices::Union;
use crate::listed::Listed;
use crate::ours::unions as ours;
use crate::plain_reading::unions as reading;
use crate::rust::Said;
use crate::rust::unions as rust;
use crate::rust::unions::RustUnion;

/// Each call's cases.
pub struct Calls<'a> {
    count: AgainstRust<'a, CountInput>,
    split: AgainstRust<'a, SplitInput>,
    column: AgainstRust<'a, SplitInput>,
    expand: AgainstRust<'a, ExpandInput>,
    new: AgainstRust<'a, NewInput>,
    merge: AgainstRust<'a, MergeInput>,
}

impl<'a> Calls<'a> {
    pub fn new(rust_answers: &'a RustAnswers) -> Self {
        Self {
            count: AgainstRust::new("count", COUNT_CLASSES, rust_answers),
            split: AgainstRust::new("split", SPLIT_CLASSES, rust_answers),
            column: AgainstRust::new("split, column", COLUMN_CLASSES, rust_answers),
            expand: AgainstRust::new("expand", EXPAND_CLASSES, rust_answers),
            new: AgainstRust::new("new_union", NEW_CLASSES, rust_answers),
            merge: AgainstRust::new("merge", MERGE_CLASSES, rust_answers),
        }
    }

    pub fn finish(self) {
        self.count.finish();
        self.split.finish();
        self.column.finish();
        self.expand.finish();
        self.new.finish();
        self.merge.finish();
    }

    pub fn judge_count(&mut self, lg: u8, matrix: &[u64], kind: Kind) {
        let ours = ours::count(lg, matrix);
        let sides = Sides {
            spoken: ours,
            reading: reading::count(lg, matrix),
            rust: rust::count(matrix),
            ours,
        };
        let matrix = Listed::of(matrix);
        self.count.judge(CountInput { lg, matrix }, kind, sides);
    }

    /// Into a window of k bytes and a list with so much room.
    pub fn judge_split(&mut self, lg: u8, matrix: &[u64], room: usize, kind: Kind) {
        self.judge_split_into(lg, matrix, 1 << lg, room, kind);
    }

    pub fn judge_split_into(
        &mut self,
        lg: u8,
        matrix: &[u64],
        window: usize,
        room: usize,
        kind: Kind,
    ) {
        let said = rust::split(lg, matrix);
        let input = SplitInput::new(lg, matrix, window, room);
        self.judge_split_as(input, matrix, said, kind);
    }

    /// The present rows of a union of which the Rust has its own.
    pub fn judge_split_of(&mut self, lg: u8, rows: &[u64], theirs: RustUnion, kind: Kind) {
        let input = SplitInput::new(lg, rows, rows.len(), 64 * rows.len());
        self.judge_split_as(input, rows, rust::to_sketch(theirs), kind);
    }

    fn judge_split_as(
        &mut self,
        input: SplitInput,
        matrix: &[u64],
        said: Said<(SpokenParts, u64)>,
        kind: Kind,
    ) {
        let (ours, reading) = asked::split(input.lg, matrix, input.window, input.room);
        let sides = Sides {
            spoken: Answer::accepted(&[ours.answer.values[3]]),
            ours: ours.answer,
            reading: reading.answer,
            rust: column(&said),
        };
        self.column.judge(input.clone(), kind, sides);
        let sides = Sides {
            spoken: spoken_parts(&ours),
            ours,
            reading,
            rust: said.map(|(parts, _)| parts),
        };
        self.split.judge(input, kind, sides);
    }

    /// Into a matrix of so many words.
    pub fn judge_expand(&mut self, sketch: &Sketch, length: usize, kind: Kind) {
        self.judge_expand_as(sketch, length, rust::expand(sketch), kind);
    }

    /// A sketch that the crate has made.
    pub fn judge_made(&mut self, made: &CpcSketch, kind: Kind) {
        let sketch = rust::parts(made);
        self.judge_expand_as(&sketch, 1 << sketch.lg, rust::build_bit_matrix(made), kind);
    }

    fn judge_expand_as(
        &mut self,
        sketch: &Sketch,
        length: usize,
        rust: Said<Spoken<u64>>,
        kind: Kind,
    ) {
        let (ours, reading) = asked::expand(sketch, length);
        let source = Source::new(sketch, reading.answer.number);
        let sides = Sides {
            spoken: ours.spoken(length),
            ours,
            reading,
            rust,
        };
        let input = ExpandInput { source, length };
        self.expand.judge(input, kind, sides);
    }

    /// In a matrix of so many words.
    pub fn judge_new(&mut self, lg: u8, seed: u64, length: usize, kind: Kind) {
        let (ours, reading) = asked::new_union(lg, seed, length);
        let sides = Sides {
            spoken: spoken_union(&ours),
            ours,
            reading,
            rust: rust::new_union(lg, seed),
        };
        self.new.judge(NewInput { lg, seed, length }, kind, sides);
    }

    /// The union as it is left.
    pub fn judge_merge(&mut self, union: &Union, source: &Sketch, seed: u64, kind: Kind) -> Union {
        let said = rust::merge(union, source, seed);
        self.judge_merge_as(union, source, seed, said, kind)
    }

    /// The union as it is left, where the Rust's is at hand.
    pub fn judge_merge_as(
        &mut self,
        union: &Union,
        source: &Sketch,
        seed: u64,
        rust: Said<Spoken<u64>>,
        kind: Kind,
    ) -> Union {
        let (ours, reading) = asked::merge(union, source, seed);
        let after = left(union, &ours);
        let refusal = reading.answer.number;
        let input = MergeInput::new(union, source, seed, refusal, &reading.memory);
        let sides = Sides {
            spoken: spoken_union(&ours),
            ours,
            reading,
            rust,
        };
        self.merge.judge(input, kind, sides);
        after
    }
}

fn left(union: &Union, ours: &Lent<Vec<u64>>) -> Union {
    let present = match ours.answer.number {
        0 => ours.answer.values[1] as u8,
        _ => union.present,
    };
    Union {
        present,
        matrix: ours.memory.clone(),
        ..*union
    }
}

/// The present lg_k, and the words of the present rows.
fn spoken_union(ours: &Lent<Vec<u64>>) -> Spoken<u64> {
    let present = ours.answer.values[1];
    match ours.answer.number {
        0 => {
            let rows = ours.memory.len().min(1 << present.min(63));
            Spoken::Items([&[present], &ours.memory[..rows]].concat())
        }
        number => Spoken::Refusal(number),
    }
}

/// The first interesting column.
fn column(said: &Said<(SpokenParts, u64)>) -> Said<Answer> {
    match said {
        Said::Value((_, column)) => Said::Value(Answer::accepted(&[*column])),
        Said::Panic => Said::Panic,
        Said::Unasked => Said::Unasked,
    }
}

/// A window that is left unwritten is none.
fn spoken_parts(ours: &LentSplit) -> SpokenParts {
    let [coupons, flavor, offset, _, listed, _] = ours.answer.values;
    let SplitMemory { window, pairs } = &ours.memory;
    let window = match flavor {
        0 | 1 => vec![],
        _ => window.clone(),
    };
    match ours.answer.number {
        0 => SpokenParts::Parts(Parts {
            coupons,
            flavor,
            offset,
            window,
            pairs: pairs[..pairs.len().min(listed as usize)].to_vec(),
        }),
        number => SpokenParts::Refusal(number),
    }
}

//! What a call on matrices and unions is handed, as far as the Rust is handed it too, and the intended
//! differences. Each input is ordered as it is printed. By what number document 01 refuses an input is found by
//! the plain reading.

use std::fmt;

use super::sources::Source;
use super::sources::WithSource;
use crate::cases::Class;
use crate::lent_matrices::Sketch;
use crate::lent_matrices::Union;
use crate::listed::Listed;
use crate::plain_reading::unions as reading;
use crate::rust::unions::refuses_seed;

pub fn is_outside(lg: u8) -> bool {
    !(4..=26).contains(&lg)
}

#[derive(Clone, PartialEq, Eq, PartialOrd, Ord)]
pub struct CountInput {
    pub lg: u8,
    pub matrix: Listed<u64>,
}

impl fmt::Display for CountInput {
    fn fmt(&self, f: &mut fmt::Formatter<'_>) -> fmt::Result {
        write!(f, "{} {}", self.lg, self.matrix)
    }
}

pub const COUNT_CLASSES: &[Class<CountInput>] = &[
    Class {
        name: "lg_k outside 4..26",
        sides: "ours refuses 1, the Rust counts",
        holds: |input| is_outside(input.lg),
    },
    Class {
        name: "matrix not k words",
        sides: "ours refuses 2, the Rust counts",
        holds: |input| input.matrix.len() != 1 << input.lg,
    },
    Class {
        name: "all ones at lg_k 26",
        sides: "ours refuses 10, the Rust's count passes 32 bits",
        holds: |input| input.lg == 26 && !input.matrix.any(|&word| word != u64::MAX),
    },
    Class {
        name: "the reserved number's bit at lg_k 26",
        sides: "ours refuses 10, the Rust counts",
        holds: |input| input.lg == 26 && input.matrix.last().is_some_and(|word| word >> 63 == 1),
    },
];

/// A matrix to split, into a window and a list of such lengths; what its split has, if its length is right.
#[derive(Clone, PartialEq, Eq, PartialOrd, Ord)]
pub struct SplitInput {
    pub lg: u8,
    pub matrix: Listed<u64>,
    pub window: usize,
    pub room: usize,
    flavor: u64,
    offset: u64,
    column: u64,
    listed: usize,
}

impl SplitInput {
    pub fn new(lg: u8, matrix: &[u64], window: usize, room: usize) -> Self {
        let is_lawful = !is_outside(lg) && matrix.len() == 1 << lg;
        let split = is_lawful.then(|| reading::Split::of(lg, matrix));
        let of = |value: fn(&reading::Split) -> u64| split.as_ref().map_or(0, value);
        Self {
            lg,
            matrix: Listed::of(matrix),
            window,
            room,
            flavor: of(|split| split.flavor),
            offset: of(|split| split.offset),
            column: of(|split| split.column),
            listed: of(|split| split.pairs.len() as u64) as usize,
        }
    }
}

impl fmt::Display for SplitInput {
    fn fmt(&self, f: &mut fmt::Formatter<'_>) -> fmt::Result {
        let Self {
            lg,
            matrix,
            window,
            room,
            ..
        } = self;
        write!(f, "{lg} {matrix}, window of {window}, room {room}")
    }
}

const SPLIT_OUTSIDE: Class<SplitInput> = Class {
    name: "lg_k outside 4..26",
    sides: "ours refuses 1, the Rust panics",
    holds: |input| is_outside(input.lg),
};

const SPLIT_LENGTH: Class<SplitInput> = Class {
    name: "matrix not k words",
    sides: "ours refuses 2, the Rust panics, or does not look beyond k words",
    holds: |input| input.matrix.len() != 1 << input.lg,
};

const SPLIT_WINDOW: Class<SplitInput> = Class {
    name: "window not k bytes",
    sides: "ours refuses 2, the Rust makes its own",
    holds: |input| input.window != 1 << input.lg,
};

const SPLIT_ROOM: Class<SplitInput> = Class {
    name: "room shorter than the list",
    sides: "ours refuses 5, the Rust makes its own, or its table panics",
    holds: |input| input.room < input.listed,
};

const SPLIT_LONG: Class<SplitInput> = Class {
    name: "more than 24k surprises",
    sides: "ours lists them, the Rust's table panics",
    holds: |input| input.flavor >= 2 && input.listed > 24 << input.lg,
};

pub const SPLIT_CLASSES: &[Class<SplitInput>] = &[
    SPLIT_OUTSIDE,
    SPLIT_LENGTH,
    SPLIT_WINDOW,
    SPLIT_ROOM,
    SPLIT_LONG,
];

pub const COLUMN_CLASSES: &[Class<SplitInput>] = &[
    SPLIT_OUTSIDE,
    SPLIT_LENGTH,
    SPLIT_WINDOW,
    SPLIT_ROOM,
    SPLIT_LONG,
    Class {
        name: "first interesting column above the offset",
        sides: "ours answers it, 64 if there is no surprise, the Rust answers the offset",
        holds: |input| input.column > input.offset,
    },
];

/// A sketch to expand, into a matrix of such a length.
#[derive(Clone, PartialEq, Eq, PartialOrd, Ord)]
pub struct ExpandInput {
    pub source: Source,
    pub length: usize,
}

impl fmt::Display for ExpandInput {
    fn fmt(&self, f: &mut fmt::Formatter<'_>) -> fmt::Result {
        write!(f, "{}, matrix of {}", self.source, self.length)
    }
}

impl WithSource for ExpandInput {
    fn source(&self) -> &Source {
        &self.source
    }
}

pub const EXPAND_CLASSES: &[Class<ExpandInput>] = &[
    ExpandInput::OVER_64K,
    Class {
        name: "matrix not k words",
        sides: "ours refuses 2, the Rust makes its own",
        holds: |input| input.source.refusal == 2 && input.length != 1 << input.source.lg,
    },
    ExpandInput::WINDOW_OF_FEW,
    ExpandInput::WINDOW_LENGTH,
    ExpandInput::ROW_OUTSIDE,
    ExpandInput::NOT_INCREASING,
    ExpandInput::DUPLICATE,
    ExpandInput::PAST_COLUMNS,
    Class {
        name: "a listed pair inside the window's columns",
        sides: "ours refuses 14, the Rust flips the window's bit",
        holds: |input| input.source.refusal == 14,
    },
    ExpandInput::FALSE_COUPONS,
    ExpandInput::PAST_ASSERTION,
];

#[derive(Clone, PartialEq, Eq, PartialOrd, Ord)]
pub struct NewInput {
    pub lg: u8,
    pub seed: u64,
    pub length: usize,
}

impl fmt::Display for NewInput {
    fn fmt(&self, f: &mut fmt::Formatter<'_>) -> fmt::Result {
        write!(f, "{} {}, matrix of {}", self.lg, self.seed, self.length)
    }
}

pub const NEW_CLASSES: &[Class<NewInput>] = &[
    Class {
        name: "matrix not k words",
        sides: "ours refuses 2, the Rust makes its own",
        holds: |input| !is_outside(input.lg) && input.length != 1 << input.lg,
    },
    Class {
        name: "a seed whose hash is 0",
        sides: "ours takes any seed, the Rust refuses it",
        holds: |input| !is_outside(input.lg) && refuses_seed(input.seed),
    },
];

/// A lawful union, and a sketch with its seed to take in.
#[derive(Clone, PartialEq, Eq, PartialOrd, Ord)]
pub struct MergeInput {
    pub lg: u8,
    pub present: u8,
    pub source: Source,
    pub matrix: Listed<u64>,
    pub seed: u64,
    pub other: u64,
    is_tight: bool,
}

impl MergeInput {
    /// What the call leaves is by the plain reading.
    pub fn new(union: &Union, sketch: &Sketch, other: u64, refusal: u32, left: &[u64]) -> Self {
        Self {
            lg: union.lg,
            present: union.present,
            source: Source::new(sketch, refusal),
            matrix: Listed::of(&union.matrix),
            seed: union.seed,
            other,
            is_tight: refusal == 0 && is_tight(union, sketch, left),
        }
    }
}

/// The Rust takes few coupons into a sketch, one by one, and they become many there, because the rows are
/// folded: with that many its table may be full, and its offset past its assertion.
fn is_tight(union: &Union, sketch: &Sketch, left: &[u64]) -> bool {
    let k = 1 << union.present.min(sketch.lg);
    let is_few = |lg, coupons| !reading::has_window(lg, coupons);
    is_few(sketch.lg, sketch.coupons.into())
        && is_few(union.present, reading::coupons(&union.matrix))
        && reading::coupons(left) > 12 * k
}

impl fmt::Display for MergeInput {
    fn fmt(&self, f: &mut fmt::Formatter<'_>) -> fmt::Result {
        let Self {
            lg,
            present,
            source,
            matrix,
            seed,
            other,
            ..
        } = self;
        write!(
            f,
            "{lg} {present} {seed}, matrix {matrix}, source {source}, seed {other}"
        )
    }
}

impl WithSource for MergeInput {
    fn source(&self) -> &Source {
        &self.source
    }
}

pub const MERGE_CLASSES: &[Class<MergeInput>] = &[
    Class {
        name: "a seed whose hash is 0",
        sides: "ours takes any seed, the Rust refuses it",
        holds: |input| refuses_seed(input.seed) || refuses_seed(input.other),
    },
    Class {
        name: "seeds differ, and another refusal comes first",
        sides: "ours refuses by that, the Rust refuses 16 if it has the sketch at all",
        holds: |input| input.seed != input.other && ![0, 1, 16].contains(&input.source.refusal),
    },
    MergeInput::OVER_64K,
    MergeInput::WINDOW_OF_FEW,
    MergeInput::WINDOW_LENGTH,
    MergeInput::ROW_OUTSIDE,
    MergeInput::NOT_INCREASING,
    MergeInput::DUPLICATE,
    MergeInput::PAST_COLUMNS,
    Class {
        name: "a listed pair inside the window's columns",
        sides: "ours refuses 14, the Rust ORs it, or flips the window's bit of a Sliding sketch",
        holds: |input| input.source.refusal == 14,
    },
    MergeInput::FALSE_COUPONS,
    MergeInput::PAST_ASSERTION,
    Class {
        name: "few coupons that are many once folded",
        sides: "ours takes them, the Rust's table or assertion may panic",
        holds: |input| input.is_tight,
    },
];

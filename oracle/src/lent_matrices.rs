//! Matrices, sketches and unions as they are lent, and what a split leaves of its two outputs.

use std::fmt;

use crate::answer::Answer;
use crate::answer::Lent;
use crate::answer::LentMemory;
use crate::answer::Outcome;
use crate::answer::Surrounded;
use crate::answer::parting;
use crate::listed::Listed;

/// A read sketch: its flavor and its offset come from its stated coupons.
#[derive(Clone, PartialEq, Eq)]
pub struct Sketch {
    pub lg: u8,
    pub coupons: u32,
    pub window: Vec<u8>,
    pub pairs: Vec<u32>,
}

impl fmt::Display for Sketch {
    fn fmt(&self, f: &mut fmt::Formatter<'_>) -> fmt::Result {
        let (window, pairs) = (Listed::of(&self.window), Listed::of(&self.pairs));
        let (lg, coupons) = (self.lg, self.coupons);
        write!(f, "{lg} {coupons}, window {window}, pairs {pairs}")
    }
}

/// A union: its record, and the matrix of its configured k.
#[derive(Clone, PartialEq, Eq)]
pub struct Union {
    pub lg: u8,
    pub present: u8,
    pub seed: u64,
    pub matrix: Vec<u64>,
}

impl Union {
    pub fn empty(lg: u8, seed: u64) -> Self {
        Self {
            lg,
            present: lg,
            seed,
            matrix: vec![0; 1 << lg],
        }
    }

    /// The rows of the present k, where the matrix is not too short for them.
    pub fn present_rows(&self) -> &[u64] {
        &self.matrix[..1 << self.present]
    }
}

impl fmt::Display for Union {
    fn fmt(&self, f: &mut fmt::Formatter<'_>) -> fmt::Result {
        let matrix = Listed::of(&self.matrix);
        let (lg, present, seed) = (self.lg, self.present, self.seed);
        write!(f, "{lg} {present} {seed}, matrix {matrix}")
    }
}

/// The two outputs of a split.
#[derive(Clone, PartialEq, Eq)]
pub struct SplitMemory {
    pub window: Vec<u8>,
    pub pairs: Vec<u32>,
}

impl LentMemory for SplitMemory {
    fn parting(&self, other: &Self) -> Option<String> {
        parting("window", &self.window, &other.window)
            .or_else(|| parting("list", &self.pairs, &other.pairs))
    }
}

pub type LentSplit = Lent<SplitMemory>;

/// Lends both outputs to a split.
pub fn lend_split(
    memory: &SplitMemory,
    call: impl FnOnce(&mut [u8], &mut [u32]) -> Answer,
) -> LentSplit {
    let mut window = Surrounded::new(&memory.window, 0x5c);
    let mut pairs = Surrounded::new(&memory.pairs, 0x5ca1_ab1e);
    Lent {
        answer: call(window.list(), pairs.list()),
        surroundings_stay: window.stays_around() && pairs.stays_around(),
        memory: SplitMemory {
            window: window.list().to_vec(),
            pairs: pairs.list().to_vec(),
        },
    }
}

/// A split as both sides speak of it, but for the first interesting column. A sketch without a window has one
/// of no bytes.
#[derive(Clone, PartialEq, Eq)]
pub struct Parts {
    pub coupons: u64,
    pub flavor: u64,
    pub offset: u64,
    pub window: Vec<u8>,
    pub pairs: Vec<u32>,
}

/// The parts, or the number of the refusal.
#[derive(Clone, PartialEq, Eq)]
pub enum SpokenParts {
    Parts(Parts),
    Refusal(u32),
}

impl Outcome for SpokenParts {
    fn number(&self) -> u32 {
        match self {
            SpokenParts::Parts(_) => 0,
            SpokenParts::Refusal(number) => *number,
        }
    }

    fn say(&self) -> String {
        match self {
            SpokenParts::Parts(parts) => {
                let (coupons, flavor, offset) = (parts.coupons, parts.flavor, parts.offset);
                let (window, pairs) = (Listed::of(&parts.window), Listed::of(&parts.pairs));
                format!("gives {coupons} {flavor} {offset}, window {window}, pairs {pairs}")
            }
            SpokenParts::Refusal(number) => format!("refuses {number}"),
        }
    }
}

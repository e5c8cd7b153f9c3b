//! A sketch that is read, and the intended differences that it decides alone, whether it is expanded or merged.

use std::fmt;

use super::inputs::is_outside;
use crate::cases::Class;
use crate::lent_matrices::Sketch;
use crate::listed::Listed;
use crate::plain_reading::unions as reading;

/// A sketch that is read, and by what number document 01 refuses the call.
#[derive(Clone, PartialEq, Eq, PartialOrd, Ord)]
pub struct Source {
    pub lg: u8,
    pub coupons: u32,
    pub window: Listed<u8>,
    pub pairs: Listed<u32>,
    pub refusal: u32,
    offset: u64,
    is_past_columns: bool,
    has_duplicate: bool,
}

impl Source {
    pub fn new(sketch: &Sketch, refusal: u32) -> Self {
        let is_sized = !is_outside(sketch.lg);
        Self {
            lg: sketch.lg,
            coupons: sketch.coupons,
            window: Listed::of(&sketch.window),
            pairs: Listed::of(&sketch.pairs),
            refusal,
            offset: reading::offset_of(sketch.lg, sketch.coupons.into()),
            is_past_columns: is_sized && reading::row_past_columns(sketch).is_some(),
            has_duplicate: refusal == 11 && has_duplicate(&sketch.pairs),
        }
    }

    fn is_over(&self) -> bool {
        self.refusal == 17 && u64::from(self.coupons) > 64 << self.lg
    }

    fn has_no_window(&self) -> bool {
        !reading::has_window(self.lg, self.coupons.into())
    }

    /// Lawful, but the Rust asserts in debug that an offset is 56 at the most.
    fn is_past_assertion(&self) -> bool {
        cfg!(debug_assertions) && self.refusal == 0 && self.offset > 56
    }
}

impl fmt::Display for Source {
    fn fmt(&self, f: &mut fmt::Formatter<'_>) -> fmt::Result {
        let Self {
            lg,
            coupons,
            window,
            pairs,
            ..
        } = self;
        write!(f, "{lg} {coupons}, window {window}, pairs {pairs}")
    }
}

fn has_duplicate(pairs: &[u32]) -> bool {
    let mut sorted = pairs.to_vec();
    sorted.sort_unstable();
    sorted.windows(2).any(|two| two[0] == two[1])
}

/// An input with such a sketch, and the classes that it has by that.
pub trait WithSource: Sized + 'static {
    fn source(&self) -> &Source;

    const OVER_64K: Class<Self> = Class {
        name: "more than 64k coupons",
        sides: "ours refuses 17, the Rust takes them, or panics",
        holds: |input| input.source().is_over(),
    };

    const WINDOW_OF_FEW: Class<Self> = Class {
        name: "a window with an Empty or Sparse sketch",
        sides: "ours refuses 2, the Rust takes it, or does not look at it",
        holds: |input| input.source().refusal == 2 && input.source().has_no_window(),
    };

    const WINDOW_LENGTH: Class<Self> = Class {
        name: "window not k bytes",
        sides: "ours refuses 2, the Rust panics, or does not look beyond k bytes, or sees no window",
        holds: |input| input.source().refusal == 2,
    };

    const ROW_OUTSIDE: Class<Self> = Class {
        name: "a row not below k",
        sides: "ours refuses 8, the Rust panics",
        holds: |input| input.source().refusal == 8,
    };

    const NOT_INCREASING: Class<Self> = Class {
        name: "a pair not above the one before, without duplicates",
        sides: "ours refuses 11, the Rust takes any order",
        holds: |input| input.source().refusal == 11 && !input.source().has_duplicate,
    };

    const DUPLICATE: Class<Self> = Class {
        name: "a duplicate, or one besides another fault",
        sides: "ours refuses 11 at its place, the Rust refuses a duplicate without a place, or panics",
        holds: |input| input.source().refusal == 11,
    };

    const PAST_COLUMNS: Class<Self> = Class {
        name: "a window bit past column 63",
        sides: "ours refuses 14, the Rust drops it, and panics in debug where it builds a matrix",
        holds: |input| input.source().refusal == 14 && input.source().is_past_columns,
    };

    const FALSE_COUPONS: Class<Self> = Class {
        name: "stated coupons that differ from those held",
        sides: "ours refuses 17, the Rust takes them",
        holds: |input| input.source().refusal == 17,
    };

    const PAST_ASSERTION: Class<Self> = Class {
        name: "an offset from 57 to 61, in debug",
        sides: "ours takes it, the Rust panics by an assertion of debug",
        holds: |input| input.source().is_past_assertion(),
    };
}

//! Flavor, offset, phase and base bits, each against the Rust.

use std::collections::BTreeSet;
use std::fmt;

use super::thresholds;
use crate::answer::Answer;
use crate::cases::AgainstRust;
use crate::cases::Class;
use crate::cases::Kind;
use crate::cases::RustAnswers;
use crate::cases::Sides;
use crate::ours;
use crate::plain_reading::numbers as reading;
use crate::random::Random;
use crate::rust;
use crate::rust::Said;

/// An lg_k and a count, of coupons or of pairs.
#[derive(Clone, Copy, PartialEq, Eq, PartialOrd, Ord)]
pub struct Input {
    pub lg: u8,
    pub count: u32,
}

impl fmt::Display for Input {
    fn fmt(&self, f: &mut fmt::Formatter<'_>) -> fmt::Result {
        write!(f, "{} {}", self.lg, self.count)
    }
}

/// One number worked out by both sides from the same input.
pub struct NumberCall {
    pub name: &'static str,
    ours: fn(u8, u32) -> Answer,
    reading: fn(u8, u32) -> Answer,
    rust: fn(u8, u32) -> Said<u64>,
    classes: &'static [Class<Input>],
    /// The counts that are chosen for an lg_k.
    chosen: fn(u8) -> BTreeSet<u32>,
    /// At a small lg_k every count is tried, up to so many times the rows and two more.
    every: u32,
}

const LG_OUTSIDE: Class<Input> = Class {
    name: "lg_k outside 4..26",
    sides: "ours refuses 1, the Rust answers or panics",
    holds: |input| !(4..=26).contains(&input.lg),
};

const TOO_MANY_COUPONS: Class<Input> = Class {
    name: "more than 64k coupons",
    sides: "ours refuses 17, the Rust answers",
    holds: |input| u64::from(input.count) > 64 << input.lg,
};

const NO_PAIRS: Class<Input> = Class {
    name: "no pairs",
    sides: "ours answers 0, the Rust divides by zero",
    holds: |input| input.count == 0,
};

const SUM_PASSES_32_BITS: Class<Input> = Class {
    name: "k + n passes 32 bits",
    sides: "ours answers 0, the Rust panics or goes on with the low 32 bits",
    holds: |input| (1 << input.lg) + u64::from(input.count) > u64::from(u32::MAX),
};

pub const FLAVOR: NumberCall = NumberCall {
    name: "determine_flavor",
    ours: ours::determine_flavor,
    reading: reading::flavor,
    rust: rust::determine_flavor,
    classes: &[LG_OUTSIDE],
    chosen: thresholds::coupons,
    every: 64,
};

pub const OFFSET: NumberCall = NumberCall {
    name: "determine_correct_offset",
    ours: ours::determine_correct_offset,
    reading: reading::offset,
    rust: rust::determine_correct_offset,
    classes: &[LG_OUTSIDE, TOO_MANY_COUPONS],
    ..FLAVOR
};

pub const PHASE: NumberCall = NumberCall {
    name: "determine_pseudo_phase",
    ours: ours::determine_pseudo_phase,
    reading: reading::phase,
    rust: rust::determine_pseudo_phase,
    ..FLAVOR
};

pub const BASE_BITS: NumberCall = NumberCall {
    name: "number_of_base_bits",
    ours: ours::number_of_base_bits,
    reading: reading::base_bits,
    rust: rust::number_of_base_bits,
    classes: &[LG_OUTSIDE, NO_PAIRS, SUM_PASSES_32_BITS],
    chosen: thresholds::pairs,
    every: 4,
};

/// Compares all four, with so many random inputs each besides the chosen ones.
pub fn compare(rust_answers: &mut RustAnswers, random_cases: u64) {
    for call in [FLAVOR, OFFSET, PHASE, BASE_BITS] {
        call.compare(rust_answers, random_cases);
    }
}

impl NumberCall {
    /// What the Rust answers to an input of no intended class.
    pub fn agreed_answer(&self, input: Input) -> Option<u64> {
        let is_intended = self.classes.iter().any(|class| (class.holds)(&input));
        match (self.rust)(input.lg, input.count) {
            Said::Value(value) if !is_intended => Some(value),
            _ => None,
        }
    }

    fn compare(&self, rust_answers: &mut RustAnswers, random_cases: u64) {
        let mut cases = AgainstRust::new(self.name, self.classes, rust_answers);
        let mut judge = |lg, count, kind| {
            let (ours, reading) = ((self.ours)(lg, count), (self.reading)(lg, count));
            let rust = (self.rust)(lg, count).map(|value| Answer::accepted(&[value]));
            let sides = Sides {
                ours,
                reading,
                spoken: ours,
                rust,
            };
            cases.judge(Input { lg, count }, kind, sides);
        };
        for lg in 0..=u8::MAX {
            for count in (self.chosen)(lg) {
                judge(lg, count, Kind::Chosen);
            }
        }
        for lg in 4..=8 {
            for count in 0..=(self.every << lg) + 2 {
                judge(lg, count, Kind::Chosen);
            }
        }
        let mut random = Random::new(1);
        for _ in 0..random_cases {
            let Input { lg, count } = random_input(&mut random);
            judge(lg, count, Kind::Random);
        }
        cases.finish();
    }
}

/// Mostly a lawful lg_k; a count of any length, or one up to a little over 64k.
fn random_input(random: &mut Random) -> Input {
    let lg = match random.below(16) {
        0 => random.below(256) as u8,
        _ => 4 + random.below(23) as u8,
    };
    let count = match random.below(2) {
        0 => random.below(65 << lg.min(26)).min(u32::MAX.into()) as u32,
        _ => random.of_any_length() as u32,
    };
    Input { lg, count }
}

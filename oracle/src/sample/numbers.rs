//! Flavor, offset, phase and base bits, at their thresholds.

use std::collections::BTreeSet;
use std::fmt::Write;

use super::LG_KS;
use crate::compare::numbers::BASE_BITS;
use crate::compare::numbers::FLAVOR;
use crate::compare::numbers::Input;
use crate::compare::numbers::NumberCall;
use crate::compare::numbers::OFFSET;
use crate::compare::numbers::PHASE;
use crate::compare::thresholds;
use crate::compare::thresholds::ALL_CELLS;
use crate::compare::thresholds::Share;
use crate::compare::thresholds::offset_share;

pub fn write(text: &mut String) {
    let offsets = [0, 1, 2, 30, 61].map(offset_share);
    let steady = [Share(39, 16), Share(3, 1)];
    let phases = [&thresholds::PHASES[..], &steady].concat();
    let halvings = [Share(1, 1), Share(1, 2), Share(1, 4), Share(1, 16)];
    // A number of coupons changes at the threshold, the base bits after it.
    let (at, after) = ([-1, 0], [0, 1]);
    for lg in LG_KS {
        write_call(text, &FLAVOR, lg, &thresholds::FLAVORS, at);
        write_call(text, &OFFSET, lg, &offsets, at);
        write_call(text, &PHASE, lg, &phases, at);
        write_call(text, &BASE_BITS, lg, &halvings, after);
    }
}

/// Both sides of each threshold, and both ends, wherever ours must answer what the Rust does.
fn write_call(text: &mut String, call: &NumberCall, lg: u8, shares: &[Share], sides: [i128; 2]) {
    let least = |&share| thresholds::least_not_below(lg, share);
    let places = shares.iter().filter_map(least);
    let counts: BTreeSet<u32> = places
        .flat_map(|place| sides.map(|side| place + side))
        .chain(least(&ALL_CELLS))
        .chain([0, 1, u32::MAX.into()])
        .filter_map(|count| u32::try_from(count).ok())
        .collect();
    for count in counts {
        let input = Input { lg, count };
        if let Some(value) = call.agreed_answer(input) {
            writeln!(text, "{} {input} = 0 0 0 {value}", call.name).unwrap();
        }
    }
}

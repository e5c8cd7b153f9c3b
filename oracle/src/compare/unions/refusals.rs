//! Every choice of faults together, so that the order of the refusals shows.

use super::lent::LentCalls;
use super::sketches;
use crate::growing::SEED;
use crate::lent_matrices::Sketch;
use crate::lent_matrices::Union;
use crate::plain_reading::unions::offset_of;
use crate::random::Random;

type Fault<T> = fn(&mut T);

/// From the first that is told to the last.
const SKETCH_FAULTS: [Fault<Sketch>; 9] = [
    |sketch| sketch.lg = 3,
    |sketch| sketch.coupons = 1025,
    |sketch| sketch.window.push(0),
    |sketch| sketch.pairs.push(1029),
    |sketch| sketch.pairs.push(0),
    |sketch| sketch.pairs.reverse(),
    |sketch| {
        sketch
            .window
            .iter_mut()
            .skip(2)
            .for_each(|byte| *byte |= 128)
    },
    put_pair_inside,
    |sketch| sketch.coupons += 1,
];

const UNION_FAULTS: [Fault<Union>; 5] = [
    |union| union.lg = 27,
    |union| union.matrix.push(0),
    |union| union.present = 3,
    |union| union.present = 6,
    |union| union.matrix[31] = 2,
];

/// In the third row, in the window's columns.
fn put_pair_inside(sketch: &mut Sketch) {
    let offset = offset_of(sketch.lg, sketch.coupons.into()) as u32;
    let pair = 2 * 64 + (offset + 3).min(63);
    let place = sketch.pairs.partition_point(|&other| other < pair);
    sketch.pairs.insert(place, pair);
}

/// A copy with each fault whose bit is set, the last first, so that an earlier one is not undone.
fn with_faults<T: Clone>(lawful: &T, faults: &[Fault<T>], chosen: u32) -> T {
    let mut copy = lawful.clone();
    for (bit, fault) in faults.iter().enumerate().rev() {
        if chosen >> bit & 1 == 1 {
            fault(&mut copy);
        }
    }
    copy
}

pub fn judge(calls: &mut LentCalls) {
    let mut random = Random::new(24);
    // Of each flavor, and with offsets of 56 and of 58.
    for coupons in [0, 1, 5, 20, 200, 950, 966] {
        let matrix = sketches::matrix(4, coupons, 4, &mut random);
        let sketch = sketches::sketch(4, &matrix);
        judge_split(calls, &matrix, sketch.pairs.len());
        for chosen in 0..1 << SKETCH_FAULTS.len() {
            let faulty = with_faults(&sketch, &SKETCH_FAULTS, chosen);
            for length in [16, 17, 0] {
                calls.judge_expand(&faulty, length);
            }
            judge_merges(calls, &faulty, &mut random);
        }
    }
    for lg in [0, 3, 4, 5, 26, 27, u8::MAX] {
        for length in [0, 15, 16, 17, 32] {
            calls.judge_new(lg, SEED, length);
        }
    }
}

fn judge_split(calls: &mut LentCalls, matrix: &[u64], listed: usize) {
    for lg in [0, 3, 4, 5, 27, u8::MAX] {
        for length in [16, 15, 0] {
            for window in [16, 15, 17, 0] {
                for room in [listed, listed + 2, listed.saturating_sub(1), 0] {
                    calls.judge_split(lg, &matrix[..length], window, room);
                }
            }
        }
    }
}

/// Into a folded union with every choice of faults, with the right seed and with another.
fn judge_merges(calls: &mut LentCalls, source: &Sketch, random: &mut Random) {
    let mut matrix = sketches::matrix(4, 30, 4, random);
    matrix.resize(32, 0);
    let union = Union {
        lg: 5,
        present: 4,
        seed: SEED,
        matrix,
    };
    for chosen in 0..1 << UNION_FAULTS.len() {
        let faulty = with_faults(&union, &UNION_FAULTS, chosen);
        for seed in [SEED, SEED + 1] {
            calls.judge_merge(&faulty, source, seed);
        }
    }
}

//! Inputs as small as each intended difference has them, the same in both profiles.

use super::calls::Calls;
use super::sketches;
use crate::cases::Kind;
use crate::growing::SEED;
use crate::lent_matrices::Sketch;
use crate::lent_matrices::Union;
use crate::rust::unions::refuses_seed;

pub fn judge(calls: &mut Calls) {
    judge_lengths(calls);
    judge_seeds(calls);
    for words in [[1; 16], [1 << 63; 16], [1 << 9; 16], [u64::MAX << 32; 16]] {
        calls.judge_split(4, &words, 1024, Kind::Chosen);
        calls.judge_split(4, &words, 0, Kind::Chosen);
    }
    for sketch in faulty() {
        judge_sketch(calls, &sketch, Kind::Chosen);
    }
    // Lawful, with an offset of 57: only debug has a class for it.
    let mut matrix = [(1 << 59) - 1; 16];
    matrix[10..].fill((1 << 60) - 1);
    judge_sketch(calls, &sketches::sketch(4, &matrix), Kind::Random);
}

/// Expanded, and taken into an empty union, with the right seed and with another.
fn judge_sketch(calls: &mut Calls, sketch: &Sketch, kind: Kind) {
    calls.judge_expand(sketch, 1 << sketch.lg, kind);
    for seed in [SEED, SEED + 1] {
        calls.judge_merge(&Union::empty(4, SEED), sketch, seed, kind);
    }
}

/// Every lg_k around the right ones, with matrices and windows of every length.
fn judge_lengths(calls: &mut Calls) {
    for lg in (0..=6).chain([26, 27, 31, 32, 63, 64, u8::MAX]) {
        for length in [0, 1, 15, 16, 17, 31, 32, 64] {
            let matrix = vec![0; length];
            calls.judge_count(lg, &matrix, Kind::Chosen);
            calls.judge_new(lg, SEED, length, Kind::Chosen);
            for window in [length, 16] {
                calls.judge_split_into(lg, &matrix, window, 0, Kind::Chosen);
            }
            let sketch = Sketch {
                lg,
                coupons: 0,
                window: vec![],
                pairs: vec![],
            };
            calls.judge_expand(&sketch, length, Kind::Chosen);
        }
    }
    calls.judge_split_into(4, &[0; 16], 15, 0, Kind::Chosen);
}

/// The least, the greatest, the usual one, and the first that the Rust refuses.
fn judge_seeds(calls: &mut Calls) {
    let refused = (0..)
        .find(|&seed| refuses_seed(seed))
        .expect("one of 65,536");
    let sketch = sketches::sketch(4, &[1; 16]);
    for seed in [0, 1, SEED, u64::MAX, refused] {
        calls.judge_new(4, seed, 16, Kind::Chosen);
        for (own, other) in [(seed, seed), (seed, SEED), (SEED, seed)] {
            calls.judge_merge(&Union::empty(4, own), &sketch, other, Kind::Chosen);
        }
    }
}

/// The smallest sketches with each fault.
fn faulty() -> Vec<Sketch> {
    let with_window = |coupons, window: [u8; 16], pairs: &[u32]| Sketch {
        lg: 4,
        coupons,
        window: window.to_vec(),
        pairs: pairs.to_vec(),
    };
    let without = |coupons, pairs: &[u32]| Sketch {
        lg: 4,
        coupons,
        window: vec![],
        pairs: pairs.to_vec(),
    };
    let first = |byte| [[byte].as_slice(), &[0; 15]].concat().try_into().unwrap();
    let last = |byte| [[0; 15].as_slice(), &[byte]].concat().try_into().unwrap();
    vec![
        without(0, &[0]),
        without(0, &[1024]),
        without(1, &[1, 0]),
        without(1, &[0, 0]),
        without(1, &[1024]),
        without(2, &[0, 1]),
        without(1025, &[]),
        with_window(1, first(1), &[]),
        with_window(1, [0; 16], &[0]),
        with_window(2, first(1), &[0]),
        with_window(2, first(1), &[]),
        with_window(950, last(128), &[]),
        with_window(950, [0; 16], &[57]),
    ]
}

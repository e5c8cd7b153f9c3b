//! Matrices and unions.

mod asked;
mod calls;
mod chosen;
mod grown;
mod huge;
mod inputs;
mod lent;
mod refusals;
mod sketches;
mod sources;

use self::calls::Calls;
use self::lent::LentCalls;
use crate::cases::Kind;
use crate::cases::RustAnswers;
use crate::growing::SEED;
use crate::lent_matrices::Union;
use crate::random::Random;

/// How the columns of a matrix lie: see `sketches::matrix`.
const DISORDERS: [u64; 4] = [1, 3, 12, 64];

/// How much is tried.
pub struct Effort {
    /// The greatest lg_k of matrices and sketches of ours, and of sketches that the crate grows.
    pub most: u8,
    pub most_grown: u8,
    /// So many unions of several sources.
    pub unions: u64,
    /// Every so many numbers of coupons at lg_k 4 one is tried.
    pub step: usize,
    /// Whether matrices of half a gigabyte are tried.
    pub huge: bool,
}

pub fn compare(rust_answers: &RustAnswers, effort: &Effort) {
    let mut calls = Calls::new(rust_answers);
    chosen::judge(&mut calls);
    judge_chosen_damage(&mut calls);
    judge_smallest(&mut calls, effort.step);
    judge_thresholds(&mut calls, effort.most);
    grown::judge(&mut calls, effort);
    if effort.huge {
        huge::judge_counts(&mut calls);
    }
    calls.finish();
    let mut calls = LentCalls::new();
    refusals::judge(&mut calls);
    calls.finish();
    if effort.huge {
        huge::judge_reserved();
    }
}

/// Damaged copies of sketches of each flavor, the same in both profiles.
fn judge_chosen_damage(calls: &mut Calls) {
    let mut random = Random::new(20);
    for coupons in [0, 1, 2, 7, 8, 53, 54, 300, 900] {
        let matrix = sketches::matrix(4, coupons, 3, &mut random);
        judge_damaged(calls, 4, &matrix, Kind::Chosen, &mut random);
    }
}

/// At lg_k 4 every number of coupons, and damaged copies of each sketch.
fn judge_smallest(calls: &mut Calls, step: usize) {
    let mut random = Random::new(21);
    for disorder in DISORDERS {
        for coupons in (0..=1024).step_by(step) {
            let matrix = sketches::matrix(4, coupons, disorder, &mut random);
            judge_matrix(calls, 4, &matrix, &mut random);
            judge_damaged(calls, 4, &matrix, Kind::Random, &mut random);
        }
    }
}

fn judge_thresholds(calls: &mut Calls, most: u8) {
    let mut random = Random::new(22);
    for lg in 4..=most {
        for coupons in sketches::thresholds(lg) {
            // The larger a matrix, the fewer are tried.
            if random.below(1 << (lg / 2)) > 3 {
                continue;
            }
            let disorder = DISORDERS[random.below(4) as usize];
            let matrix = sketches::matrix(lg, coupons, disorder, &mut random);
            judge_matrix(calls, lg, &matrix, &mut random);
            if lg <= 7 {
                judge_damaged(calls, lg, &matrix, Kind::Random, &mut random);
            }
        }
    }
}

/// Every call on a matrix and on its sketch.
fn judge_matrix(calls: &mut Calls, lg: u8, matrix: &[u64], random: &mut Random) {
    let sketch = sketches::sketch(lg, matrix);
    let (kind, rows, listed) = (Kind::Random, 1 << lg, sketch.pairs.len());
    calls.judge_count(lg, matrix, kind);
    calls.judge_split(lg, matrix, listed, kind);
    calls.judge_split(lg, matrix, listed + 5, kind);
    calls.judge_split(lg, matrix, listed.saturating_sub(1), kind);
    calls.judge_expand(&sketch, rows, kind);
    for _ in 0..2 {
        let union = random_union(lg, random);
        let after = calls.judge_merge(&union, &sketch, SEED, kind);
        calls.judge_merge(&after, &sketch, SEED, kind);
    }
    calls.judge_merge(&Union::empty(lg, SEED), &sketch, SEED, kind);
}

/// Damaged copies of a sketch, expanded, and taken in with the right seed and with another.
fn judge_damaged(calls: &mut Calls, lg: u8, matrix: &[u64], kind: Kind, random: &mut Random) {
    let sketch = sketches::sketch(lg, matrix);
    for copy in sketches::damaged(&sketch, random) {
        let rows = 1usize.checked_shl(copy.lg.into()).unwrap_or(0).min(1 << 10);
        calls.judge_expand(&copy, rows, kind);
        let union = random_union(lg, random);
        calls.judge_merge(&union, &copy, SEED, kind);
        calls.judge_merge(&union, &copy, SEED + 1, kind);
    }
}

/// Configured about as large as a sketch at this lg_k, and folded or not.
fn random_union(lg: u8, random: &mut Random) -> Union {
    let configured = (lg + random.below(5) as u8).saturating_sub(2).max(4);
    let present = match random.below(2) {
        0 => configured,
        _ => 4 + random.below(u64::from(configured) - 3) as u8,
    };
    let coupons = random.below((64 << present) + 1) >> random.below(12);
    let disorder = DISORDERS[random.below(4) as usize];
    let mut matrix = sketches::matrix(present, coupons, disorder, random);
    matrix.resize(1 << configured, 0);
    Union {
        lg: configured,
        present,
        seed: SEED,
        matrix,
    }
}

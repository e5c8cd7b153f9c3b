//! The pair table.

mod builds;
mod calls;
mod damage;
mod every_table;
mod huge;
mod inputs;
mod lent;
mod refusals;
pub mod sequences;

use self::calls::Calls;
use self::lent::LentCalls;
use crate::cases::Kind;
use crate::cases::RustAnswers;
use crate::lent_tables::Table;
use crate::plain_reading::pair_lists::RESERVED;
use crate::random::Random;

/// How much is tried.
pub struct Effort {
    /// At up to so many valid bits every table is tried.
    pub every_valid: u8,
    /// A sequence has so many calls and two for each slot of its region, which are up to 2^most.
    pub calls: usize,
    pub most: u8,
    /// The items of the longest list.
    pub longest_list: u64,
    /// So many tables of each size are damaged.
    pub damaged: u64,
    /// Whether tables of 2^26 slots and lists of a gigabyte are tried.
    pub huge: bool,
}

pub fn compare(rust_answers: &RustAnswers, effort: &Effort) {
    let mut calls = Calls::new(rust_answers);
    judge_chosen(&mut calls);
    judge_small(&mut calls, effort);
    judge_sequences(&mut calls, effort);
    judge_lists(&mut calls, effort);
    if effort.huge {
        huge::judge(&mut calls);
    }
    calls.finish();
    let mut calls = LentCalls::new();
    refusals::judge(&mut calls);
    damage::judge_every_region(&mut calls);
    damage::judge(&mut calls, effort.damaged);
    if effort.huge {
        huge::judge_full(&mut calls);
        huge::judge_too_many(&mut calls);
    }
    calls.finish();
}

/// New tables of every lg and valid bits; builds of nothing and of few items at all valid bits.
fn judge_chosen(calls: &mut Calls) {
    for lg in (0..=16).chain([26, 27, 28, 31, 32, 63, 64, 254, u8::MAX]) {
        for valid in (0..=34).chain([64, 254, u8::MAX]) {
            // A region of 2^26 slots is not needed to be refused.
            let slots = if lg <= 16 { 1 << lg } else { 4 };
            let is_huge = lg == 26 && (27..=32).contains(&valid);
            for length in [slots, slots + 3, slots - 1]
                .into_iter()
                .filter(|_| !is_huge)
            {
                calls.judge_new(lg, valid, length, Kind::Chosen);
            }
        }
    }
    for valid in 0..=u8::MAX {
        for list in [
            &[][..],
            &[0],
            &[1, 0],
            &[5, 2, 5],
            &[0, 1, 2, 3],
            &[u32::MAX],
        ] {
            for length in [0, 3, 4, 7, 8] {
                calls.judge_build(valid, list, length, Kind::Chosen);
            }
        }
    }
    for valid in 3..=32 {
        judge_first_items(calls, valid);
    }
}

/// The least item, the greatest, those beside them, and the reserved number, in the smallest tables.
fn judge_first_items(calls: &mut Calls, valid: u8) {
    let limit = (1u64 << valid) as u32;
    let items = [
        0,
        1,
        limit.wrapping_sub(2),
        limit.wrapping_sub(1),
        limit,
        limit + 1,
    ];
    let empty = Table::empty(2, valid, 4);
    for item in items.into_iter().chain([RESERVED - 1, RESERVED]) {
        let one = calls.judge_insert(&empty, item, Kind::Chosen);
        for other in items.into_iter().chain([RESERVED - 1, RESERVED]) {
            let two = calls.judge_insert(&one, other, Kind::Chosen);
            calls.judge_delete(&one, other, Kind::Chosen);
            calls.judge_delete(&two, other, Kind::Chosen);
        }
    }
}

/// Three valid bits in both profiles, so that their answers can be held against each other.
fn judge_small(calls: &mut Calls, effort: &Effort) {
    for length in [4, 5, 8] {
        every_table::judge_tables(calls, 3, length, Kind::Chosen);
    }
    every_table::judge_lists(calls, 3, 4, 4, Kind::Chosen);
    if effort.every_valid >= 4 {
        for length in [4, 9] {
            every_table::judge_tables(calls, 4, length, Kind::Random);
        }
        every_table::judge_lists(calls, 3, 5, 4, Kind::Random);
        every_table::judge_lists(calls, 4, 4, 8, Kind::Random);
    }
}

fn judge_sequences(calls: &mut Calls, effort: &Effort) {
    let mut random = Random::new(11);
    for valid in 3..=32 {
        for most in [2, 3, 4, 6, 8, 10, 12] {
            let fits = most < valid && most <= effort.most;
            let is_slow = most >= 10 && !(valid % 8 == 0 || valid == most + 1);
            if !fits || is_slow {
                continue;
            }
            for lying in sequences::LYINGS {
                let steps = effort.calls + (2 << most);
                sequences::judge_sequence(calls, valid, most, lying, steps, &mut random);
            }
        }
    }
    for lg in 2..=effort.most + 4 {
        for valid in [lg + 1, lg + 2, 32] {
            sequences::judge_thresholds(calls, lg, valid);
        }
    }
}

fn judge_lists(calls: &mut Calls, effort: &Effort) {
    let mut random = Random::new(12);
    for valid in 3..=32 {
        for count in [0, 1, 2, 3, 4, 6, 7, 12, 13, 48, 49] {
            builds::judge_lists(calls, valid, count, &mut random);
        }
        let count = 50 + random.below(effort.longest_list / 50);
        builds::judge_lists(calls, valid, count, &mut random);
    }
    for valid in [18, 20, 24, 32] {
        builds::judge_lists(calls, valid, effort.longest_list, &mut random);
    }
}

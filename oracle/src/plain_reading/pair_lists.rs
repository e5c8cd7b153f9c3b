//! A list of pairs: lawful, and strictly increasing.

use super::numbers::lawful_rows;
use crate::answer::Answer;

/// The empty slot, which is never a pair.
pub const RESERVED: u32 = u32::MAX;

pub fn row(pair: u32) -> u64 {
    u64::from(pair / 64)
}

pub fn column(pair: u32) -> u64 {
    u64::from(pair % 64)
}

/// The first faulty pair: 8, 11, 10.
pub fn judged(k: u64, pairs: &[u32]) -> Result<(), Answer> {
    for (place, &pair) in pairs.iter().enumerate() {
        let refused = |number| Err(Answer::refused_at(number, place as u64));
        if row(pair) >= k {
            return refused(8);
        } else if place > 0 && pair <= pairs[place - 1] {
            return refused(11);
        } else if pair == RESERVED {
            return refused(10);
        }
    }
    Ok(())
}

pub fn judge_pairs(lg: u8, pairs: &[u32]) -> Answer {
    let judged = lawful_rows(lg).and_then(|k| judged(k, pairs));
    judged.map_or_else(|refused| refused, |()| Answer::accepted(&[]))
}

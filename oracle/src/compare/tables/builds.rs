//! Builds of lists: rising, falling and shuffled, of items that lie in many ways, with and without a fault;
//! and the listings of what was built.

use super::calls::Calls;
use crate::cases::Kind;
use crate::compare::streams::lists::Spread;
use crate::compare::streams::lists::increasing;
use crate::plain_reading::pair_lists::RESERVED;
use crate::plain_reading::tables::least_lg;
use crate::random::Random;

/// More items than that side by side keep the Rust and the plain reading too long.
const MOST_SIDE_BY_SIDE: u64 = 4000;

/// So many items below 2^valid, in each order.
pub fn judge_lists(calls: &mut Calls, valid: u8, count: u64, random: &mut Random) {
    let limit = (1u64 << valid).min(RESERVED.into());
    let spreads = [
        Spread::Even,
        Spread::Clustered,
        Spread::Uneven,
        Spread::Dense,
    ];
    for spread in spreads {
        let is_slow = matches!(spread, Spread::Uneven | Spread::Dense);
        let count = match is_slow {
            true => count.min(MOST_SIDE_BY_SIDE),
            false => count,
        };
        let mut list = increasing(limit, count.min(limit), spread, random);
        judge_list(calls, valid, &list, random);
        list.reverse();
        judge_list(calls, valid, &list, random);
        random.shuffle(&mut list);
        judge_list(calls, valid, &list, random);
        judge_faulty(calls, valid, list, random);
    }
}

/// A list alone, and in a region that is too short by one slot or longer than needed.
fn judge_list(calls: &mut Calls, valid: u8, list: &[u32], random: &mut Random) {
    let slots = 1 << least_lg(list.len());
    for length in [slots, slots - 1, slots + 1 + random.below(20) as usize] {
        let built = calls.judge_build(valid, list, length, Kind::Random);
        if let Some(table) = built.filter(|_| length != slots) {
            calls.judge_listings(&table, list.len() + 1, Kind::Random);
        }
    }
}

/// One or two faults: an item that stands twice, one too large, and the reserved number.
fn judge_faulty(calls: &mut Calls, valid: u8, list: Vec<u32>, random: &mut Random) {
    if list.is_empty() {
        return;
    }
    let slots = 1 << least_lg(list.len());
    let too_large = (1u64 << valid).min(u64::from(RESERVED) - 1) as u32;
    for fault in [list[0], list[list.len() / 2], too_large, RESERVED] {
        let mut faulty = list.clone();
        faulty[random.below(list.len() as u64) as usize] = fault;
        calls.judge_build(valid, &faulty, slots, Kind::Random);
        let other = random.below(list.len() as u64) as usize;
        faulty[other] = faulty[random.below(list.len() as u64) as usize];
        calls.judge_build(valid, &faulty, slots, Kind::Random);
        calls.judge_build(valid, &faulty, slots - 1, Kind::Random);
    }
}

//! Tables of 2^26 slots, and lists of more items than a table or a call takes.

use super::calls::Calls;
use super::lent::LentCalls;
use crate::cases::Kind;
use crate::lent_tables::Memory;
use crate::lent_tables::Table;
use crate::plain_reading::streams::MOST_PAIRS;
use crate::rust::Said;
use crate::rust::tables as rust;

/// The most items of a table.
const MOST_ITEMS: u32 = 3 << 24;

/// A list of one item too many for a table is refused before its duplicates are.
pub fn judge(calls: &mut Calls) {
    calls.judge_new(26, 27, 1 << 26, Kind::Random);
    for count in [MOST_ITEMS as usize + 1, MOST_PAIRS as usize + 1] {
        calls.judge_build(32, &vec![0; count], 4, Kind::Random);
    }
}

/// A full table of 2^26 slots. Its input is too long to be told beside the Rust's, so that the Rust's panic
/// is asked for here.
pub fn judge_full(calls: &mut LentCalls) {
    let full = Table::at_home(26, 32, MOST_ITEMS, 1 << 26);
    let absent = u32::MAX - 1;
    let said = rust::insert(&full, absent);
    assert!(matches!(said, Said::Panic), "the Rust grows past lg 26");
    println!(
        "table_insert: growth past lg 26: ours refuses 13, the Rust stores the item and then panics"
    );
    let (record, memory) = (full.record, Memory::around(&full.region, 0));
    drop(full);
    calls.judge_insert(record, &memory, absent);
    calls.judge_delete(record, &memory, 0);
}

/// More than 2^28 items, with every fault that is told before.
pub fn judge_too_many(calls: &mut LentCalls) {
    // Reserved, but never looked at.
    let list = vec![0; MOST_PAIRS as usize + 1];
    for valid in [2, 3, 32, 33] {
        for spare in [4, 5] {
            let memory = Memory::with_spare(&[7; 4], spare, 0);
            calls.judge_build(valid, &list, &memory);
        }
    }
}

//! Every sequence of calls at few valid bits. A call knows nothing but what it is lent, so each table that
//! calls can lead to is tried once with every call: then no sequence, however long, has a step that is
//! not tried.

use std::collections::HashSet;

use super::calls::Calls;
use crate::cases::Kind;
use crate::lent_tables::Table;
use crate::plain_reading::pair_lists::RESERVED;

/// The tables with so many valid bits, in a region of so many slots.
pub fn judge_tables(calls: &mut Calls, valid: u8, length: usize, kind: Kind) {
    let mut seen = HashSet::new();
    let mut waiting = vec![];
    for lg in 2..valid {
        calls.judge_new(lg, valid, length, kind);
        if 1 << lg <= length {
            waiting.push(Table::empty(lg, valid, length));
        }
    }
    while let Some(table) = waiting.pop() {
        if !seen.insert(table.clone()) {
            continue;
        }
        calls.judge_clear(&table, kind);
        for room in [table.record.items as usize, table.record.items as usize + 1] {
            calls.judge_listings(&table, room, kind);
        }
        if table.record.items > 0 {
            calls.judge_listings(&table, table.record.items as usize - 1, kind);
        }
        for item in (0..=1 << valid).chain([RESERVED]) {
            waiting.push(calls.judge_insert(&table, item, kind));
            waiting.push(calls.judge_delete(&table, item, kind));
        }
    }
    println!(
        "tables reached at {valid} valid bits, region of {length}: {}",
        seen.len()
    );
}

/// Every list of at most so many items, of which one may be too large and one is the reserved number.
pub fn judge_lists(calls: &mut Calls, valid: u8, most: usize, length: usize, kind: Kind) {
    let choices: Vec<u32> = (0..=1 << valid).chain([RESERVED]).collect();
    let mut lists = vec![vec![]];
    while let Some(list) = lists.pop() {
        calls.judge_build(valid, &list, length, kind);
        if list.len() < most {
            let longer = |&item| [&list[..], &[item]].concat();
            lists.extend(choices.iter().map(longer));
        }
    }
}

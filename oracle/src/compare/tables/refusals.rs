//! Every refusal together with those that stand beside it in the order, so that the order shows.

use super::lent::LentCalls;
use crate::lent_tables::Memory;
use crate::lent_tables::Record;
use crate::lent_tables::Table;
use crate::plain_reading::pair_lists::RESERVED;

pub fn judge(calls: &mut LentCalls) {
    judge_new(calls);
    judge_builds(calls);
    for table in tables() {
        for length in lengths_around(&table) {
            judge_table(calls, &table, length);
        }
    }
}

/// A spare as long as the region, and others.
fn spares(length: usize) -> [usize; 4] {
    [length, length + 1, length.saturating_sub(1), 0]
}

fn judge_new(calls: &mut LentCalls) {
    for lg in [0, 1, 2, 3, 5, 26, 27, u8::MAX] {
        for valid in [0, 2, 3, 4, 6, 26, 27, 32, 33, u8::MAX] {
            for length in [0, 3, 4, 5, 7, 8, 31, 32] {
                for spare in spares(length) {
                    let memory = Memory::with_spare(&vec![7; length], spare, 0);
                    calls.judge_new(lg, valid, &memory);
                }
            }
        }
    }
}

/// Lists with every choice of faults, in lengths around those that a table must grow for.
fn lists() -> Vec<Vec<u32>> {
    let faults: [&[u32]; 10] = [
        &[],
        &[RESERVED],
        &[RESERVED - 1],
        &[RESERVED, RESERVED - 1],
        &[RESERVED - 1, RESERVED],
        &[0],
        &[0, RESERVED],
        &[8, 0],
        &[16, 8, 16, 8],
        &[0, 0, 0, 0, 0, 0, 0],
    ];
    let mut lists = vec![];
    for count in [0, 1, 3, 4, 6, 7] {
        let right: Vec<u32> = (0..count).collect();
        for fault in faults {
            lists.push([&right[..], fault].concat());
            lists.push([fault, &right[..]].concat());
        }
    }
    lists
}

fn judge_builds(calls: &mut LentCalls) {
    for list in lists() {
        for valid in [0, 2, 3, 4, 5, 6, 31, 32, 33, u8::MAX] {
            for length in [0, 3, 4, 7, 8, 16, 32] {
                for spare in spares(length) {
                    let memory = Memory::with_spare(&vec![7; length], spare, 0);
                    calls.judge_build(valid, &list, &memory);
                }
            }
        }
    }
}

/// Tables with few items and full ones, with valid bits to spare and without; and copies that are not lawful.
fn tables() -> Vec<Table> {
    let mut tables = vec![];
    for (lg, valid) in [(2, 3), (2, 4), (2, 10), (3, 4), (3, 5), (4, 32)] {
        for items in [0, 1, 3 << (lg - 2)] {
            let lawful = Table::at_home(lg, valid, items, 1 << lg);
            let change = |lg, valid, items| Table {
                record: Record { lg, valid, items },
                region: lawful.region.clone(),
            };
            tables.push(change(lg, valid, items + 1));
            tables.push(change(lg, 33, items));
            tables.push(change(lg, lg, items));
            tables.push(change(27, valid, items));
            tables.push(lawful);
        }
    }
    tables
}

fn lengths_around(table: &Table) -> [usize; 6] {
    let slots = table.region.len();
    [0, slots - 1, slots, slots + 1, 2 * slots - 1, 2 * slots]
}

/// The table in a region of another length, with spares and outputs of many lengths and items of every kind.
fn judge_table(calls: &mut LentCalls, table: &Table, length: usize) {
    let Table { record, region } = table;
    let mut region = region.clone();
    region.resize(length, RESERVED);
    let limit = 1u64 << record.valid.min(63);
    let too_large = limit.min(u64::from(RESERVED) - 1) as u32;
    for spare in spares(length) {
        for room in [0, 1, record.items as usize, 20] {
            let memory = Memory::with_spare(&region, spare, room);
            calls.judge_whole(*record, &memory);
        }
        let memory = Memory::with_spare(&region, spare, 0);
        for item in [0, 1, 7, too_large - 1, too_large, RESERVED] {
            calls.judge_insert(*record, &memory, item);
            calls.judge_delete(*record, &memory, item);
        }
    }
}

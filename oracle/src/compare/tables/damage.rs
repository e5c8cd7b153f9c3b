//! Tables that are not lawful, or hardly: damaged copies of lawful ones, every small region, and garbage.

use super::lent::LentCalls;
use crate::compare::streams::lists::Spread;
use crate::compare::streams::lists::increasing;
use crate::lent_tables::Memory;
use crate::lent_tables::Record;
use crate::lent_tables::Table;
use crate::plain_reading::pair_lists::RESERVED;
use crate::plain_reading::tables as reading;
use crate::random::Random;

/// So many tables of each size, damaged in every way; and as many regions of garbage, many times.
pub fn judge(calls: &mut LentCalls, rounds: u64) {
    let mut random = Random::new(13);
    for lg in 2..=9 {
        for valid in [lg + 1, lg + 2, lg + 7, 31, 32] {
            for _ in 0..rounds {
                let table = random_table(lg, valid, &mut random);
                for damaged in copies(&table, &mut random) {
                    judge_with_items(calls, &damaged, &mut random);
                }
                for _ in 0..20 {
                    let table = garbage(lg, valid, &mut random);
                    judge_with_items(calls, &table, &mut random);
                }
            }
        }
    }
}

/// Every region of four slots at three valid bits, one of whose items may be too large, with every count.
pub fn judge_every_region(calls: &mut LentCalls) {
    let slot = |digit: u32| if digit == 9 { RESERVED } else { digit };
    for number in 0..10_000 {
        let region = [1000, 100, 10, 1].map(|unit| slot(number / unit % 10));
        for items in 0..=4 {
            let record = Record {
                lg: 2,
                valid: 3,
                items,
            };
            let region = region.to_vec();
            calls.judge_table(&Table { record, region }, &[number % 7]);
        }
    }
}

/// With an item of one of the slots, and with any other.
fn judge_with_items(calls: &mut LentCalls, table: &Table, random: &mut Random) {
    let any = any_item(table.record.valid, random);
    let slot = random.below(table.region.len() as u64 + 1) as usize;
    let held = table.region.get(slot).copied().unwrap_or(any);
    calls.judge_table(table, &[held, any]);
}

fn any_item(valid: u8, random: &mut Random) -> u32 {
    random.below(1 << valid.min(32)) as u32
}

/// A lawful table, with its items at their homes or where a build lays them.
fn random_table(lg: u8, valid: u8, random: &mut Random) -> Table {
    let full = 3 << (lg - 2);
    let length = (1 << lg) + random.below(3) as usize;
    if random.below(4) == 0 {
        return Table::at_home(lg, valid, random.below(full + 1) as u32, length);
    }
    // So many that a build takes this lg.
    let least = if lg == 2 { 0 } else { full / 2 + 1 };
    let count = least + random.below(full - least + 1);
    let spread = [Spread::Even, Spread::Dense, Spread::Uneven][random.below(3) as usize];
    let limit = (1u64 << valid).min(RESERVED.into());
    let mut list = increasing(limit, count, spread, random);
    random.shuffle(&mut list);
    let built = reading::build(valid, &list, &Memory::around(&vec![0; length], 0));
    Table {
        record: Record::of_values(&built.answer.values),
        region: built.memory.region,
    }
}

/// The table and its damaged copies, of which some stay lawful by luck.
fn copies(table: &Table, random: &mut Random) -> Vec<Table> {
    let mut copies = vec![table.clone()];
    copies.extend(with_other_records(table));
    copies.extend(with_other_lengths(table, random));
    for _ in 0..4 {
        copies.extend(with_other_slots(table, random));
    }
    copies.extend(overfull(table, random));
    copies
}

/// Wrong counts, of which one is right modulo 2^30; other lg, other valid bits.
fn with_other_records(table: &Table) -> Vec<Table> {
    let Record { lg, valid, items } = table.record;
    let records = [
        (lg, valid, items + 1),
        (lg, valid, items.wrapping_sub(1)),
        (lg, valid, items + (1 << 30)),
        (lg, valid, u32::MAX),
        (lg + 1, valid, items),
        (lg - 1, valid, items),
        (0, valid, items),
        (1, valid, items),
        (27, valid, items),
        (32, valid, items),
        (u8::MAX, valid, items),
        (lg, valid + 1, items),
        (lg, valid - 1, items),
        (lg, lg, items),
        (lg, 0, items),
        (lg, 33, items),
        (lg, u8::MAX, items),
    ];
    let change = |(lg, valid, items)| Table {
        record: Record { lg, valid, items },
        region: table.region.clone(),
    };
    records.map(change).to_vec()
}

/// A region too short; one that is longer, with an item beyond the slots.
fn with_other_lengths(table: &Table, random: &mut Random) -> Vec<Table> {
    let Table { record, region } = table;
    let beyond = [
        &region[..],
        &[RESERVED, any_item(record.valid, random), RESERVED],
    ];
    let regions = [
        vec![],
        region[..(1 << record.lg) - 1].to_vec(),
        [region, &[RESERVED; 5][..]].concat(),
        [region, &[0][..]].concat(),
        beyond.concat(),
    ];
    let change = |region| Table {
        record: *record,
        region,
    };
    regions.map(change).to_vec()
}

/// Two slots swapped; one slot emptied, copied to another, filled by any item, made too large; the count is
/// made true again.
fn with_other_slots(table: &Table, random: &mut Random) -> Vec<Table> {
    let slots = table.slots().len() as u64;
    let (one, other) = (random.below(slots) as usize, random.below(slots) as usize);
    let next = (one + 1) % slots as usize;
    let item = table.region[one];
    let too_large = item.wrapping_add(1u32.checked_shl(table.record.valid.into()).unwrap_or(1));
    let changes: [&[(usize, u32)]; 8] = [
        &[(one, table.region[other]), (other, item)],
        &[(one, table.region[next]), (next, item)],
        &[(one, RESERVED)],
        &[(other, item)],
        &[(next, item)],
        &[(one, any_item(table.record.valid, random))],
        &[(one, item ^ 1)],
        &[(one, too_large)],
    ];
    let change = |changes: &[(usize, u32)]| {
        let mut table = table.clone();
        for &(slot, item) in changes {
            table.region[slot] = item;
        }
        with_true_count(table)
    };
    changes.map(change).to_vec()
}

fn with_true_count(mut table: Table) -> Table {
    let held = table.slots().iter().filter(|&&slot| slot != RESERVED);
    table.record.items = held.count() as u32;
    table
}

/// Items in the empty slots, each where its search ends: until there is one too many, and until no slot is
/// empty.
fn overfull(table: &Table, random: &mut Random) -> Vec<Table> {
    let Record { lg, valid, .. } = table.record;
    let mut full = table.clone();
    let mut copies = vec![];
    let empty = |table: &Table| table.slots().iter().position(|&slot| slot == RESERVED);
    while let Some(slot) = empty(&full) {
        let home = (slot as u32) << (valid - lg);
        full.region[slot] = home + random.below(1 << (valid - lg)) as u32;
        full = with_true_count(full);
        let over = 4 * full.record.items as i64 - (3 << lg);
        if (0..=4).contains(&over) {
            copies.push(full.clone());
        }
    }
    copies.push(full);
    copies
}

/// Slots that are empty, hold any item, or one near its home; mostly with a true count.
fn garbage(lg: u8, valid: u8, random: &mut Random) -> Table {
    let (share, near) = (random.below(8), random.below(8));
    let slot = |slot: u32| match random.below(8) {
        turn if turn >= share => RESERVED,
        _ if random.below(8) < near => {
            let away = random.below(2).min(slot.into()) as u32;
            (slot - away) << (valid - lg) | random.below(2) as u32
        }
        _ => any_item(valid, random),
    };
    let region = (0..1 << lg).map(slot).collect();
    let record = Record {
        lg,
        valid,
        items: random.below(4) as u32,
    };
    let table = Table { record, region };
    match random.below(4) {
        0 => table,
        _ => with_true_count(table),
    }
}

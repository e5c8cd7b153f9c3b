//! The pair table: which tables are lawful, what changes them, and the orders in which they list items.

use std::collections::HashSet;

use super::pair_lists::RESERVED;
use super::streams::MOST_PAIRS;
use super::streams::refuse_if;
use crate::answer::Answer;
use crate::lent_tables::LentTable;
use crate::lent_tables::Memory;
use crate::lent_tables::Record;

/// The slots of a table, 2^lg of them, and no region beyond.
struct Slots {
    lg: u8,
    valid: u8,
    slots: Vec<u32>,
}

/// Slots 2^lg, lg 2..26, valid bits v, lg+1 <= v <= 32.
fn is_sized(lg: u8, valid: u8) -> bool {
    (2..=26).contains(&lg) && (lg + 1..=32).contains(&valid)
}

fn is_below(item: u32, valid: u8) -> bool {
    u64::from(item) < 1 << valid
}

impl Slots {
    fn empty(lg: u8, valid: u8) -> Self {
        Self {
            lg,
            valid,
            slots: vec![RESERVED; 1 << lg],
        }
    }

    fn held(&self) -> impl Iterator<Item = u32> {
        self.slots.iter().copied().filter(|&slot| slot != RESERVED)
    }

    fn home(&self, item: u32) -> usize {
        (item >> (self.valid - self.lg)) as usize
    }

    /// By one, wrapping.
    fn after(&self, slot: usize) -> usize {
        match slot + 1 {
            end if end == self.slots.len() => 0,
            next => next,
        }
    }

    /// The slot where a search ends: that of the item, or an empty one. None in a full table without it.
    fn search(&self, item: u32) -> Option<usize> {
        let mut slot = self.home(item);
        for _ in 0..self.slots.len() {
            if self.slots[slot] == item || self.slots[slot] == RESERVED {
                return Some(slot);
            }
            slot = self.after(slot);
        }
        None
    }

    fn store(&mut self, item: u32) {
        let slot = self.search(item).expect("a table is never full");
        self.slots[slot] = item;
    }

    /// A rebuild re-inserts in old slot order.
    fn rebuilt(&self, lg: u8) -> Self {
        let mut table = Self::empty(lg, self.valid);
        self.held().for_each(|item| table.store(item));
        table
    }

    /// Empties the slot, takes and re-inserts each item up to the next empty slot.
    fn empty_slot(&mut self, slot: usize) {
        self.slots[slot] = RESERVED;
        let mut next = self.after(slot);
        while self.slots[next] != RESERVED {
            let item = self.slots[next];
            self.slots[next] = RESERVED;
            self.store(item);
            next = self.after(next);
        }
    }

    fn record(&self) -> Record {
        Record {
            lg: self.lg,
            valid: self.valid,
            items: self.held().count() as u32,
        }
    }

    /// The region holds the slots and is empty beyond them, the spare is all empty slots.
    fn left_in(&self, memory: &Memory) -> Memory {
        let mut left = emptied(memory);
        left.region[..self.slots.len()].copy_from_slice(&self.slots);
        left
    }
}

fn emptied(memory: &Memory) -> Memory {
    Memory {
        region: vec![RESERVED; memory.region.len()],
        spare: vec![RESERVED; memory.spare.len()],
        out: memory.out.clone(),
    }
}

/// Each item found at its own slot, count true, 4·items <= 3·slots, items below 2^v, region no shorter
/// than the slots and empty beyond them.
fn lawful(record: Record, region: &[u32]) -> Option<Slots> {
    let Record { lg, valid, items } = record;
    if !is_sized(lg, valid) || region.len() < 1 << lg {
        return None;
    }
    let (slots, beyond) = region.split_at(1 << lg);
    let table = Slots {
        lg,
        valid,
        slots: slots.to_vec(),
    };
    let is_placed = |(place, &item): (usize, &u32)| {
        item == RESERVED || is_below(item, valid) && table.search(item) == Some(place)
    };
    let is_lawful = table.held().count() as u64 == u64::from(items)
        && 4 * u64::from(items) <= 3 << lg
        && slots.iter().enumerate().all(is_placed)
        && beyond.iter().all(|&slot| slot == RESERVED);
    is_lawful.then_some(table)
}

fn judged_lengths(memory: &Memory) -> Result<(), Answer> {
    refuse_if(memory.region.len() != memory.spare.len(), 2)
}

/// 2, 15.
fn judged_table(record: Record, memory: &Memory) -> Result<Slots, Answer> {
    judged_lengths(memory)?;
    lawful(record, &memory.region).ok_or(Answer::refused(15))
}

/// 10, 12.
fn judged_item(item: u32, valid: u8, place: usize) -> Result<(), Answer> {
    if item == RESERVED {
        return Err(Answer::refused_at(10, place as u64));
    }
    match is_below(item, valid) {
        true => Ok(()),
        false => Err(Answer::refused_at(12, place as u64)),
    }
}

/// 13, 5: a table is to have this lg.
fn judged_growth(lg: u8, valid: u8, memory: &Memory) -> Result<(), Answer> {
    refuse_if(lg > 26 || lg >= valid, 13)?;
    refuse_if(memory.region.len() < 1 << lg, 5)
}

/// The table, or none for an answer of false.
fn inserted(record: Record, memory: &Memory, item: u32) -> Result<Option<Slots>, Answer> {
    let mut table = judged_table(record, memory)?;
    judged_item(item, record.valid, 0)?;
    if table.slots.contains(&item) {
        return Ok(None);
    }
    let is_full = 4 * (u64::from(record.items) + 1) > 3 << record.lg;
    if is_full {
        judged_growth(record.lg + 1, record.valid, memory)?;
    }
    table.store(item);
    Ok(Some(match is_full {
        true => table.rebuilt(record.lg + 1),
        false => table,
    }))
}

/// The table, or none for an answer of false.
fn deleted(record: Record, memory: &Memory, item: u32) -> Result<Option<Slots>, Answer> {
    let mut table = judged_table(record, memory)?;
    judged_item(item, record.valid, 0)?;
    let Some(slot) = table.slots.iter().position(|&held| held == item) else {
        return Ok(None);
    };
    table.empty_slot(slot);
    while 4 * table.held().count() < table.slots.len() && table.lg > 2 {
        table = table.rebuilt(table.lg - 1);
    }
    Ok(Some(table))
}

fn after_change(change: Result<Option<Slots>, Answer>, memory: &Memory) -> LentTable {
    match change {
        Err(refused) => LentTable::expected(refused, memory.clone()),
        Ok(None) => LentTable::expected(Answer::accepted(&[0]), memory.clone()),
        Ok(Some(table)) => {
            let [lg, valid, items] = table.record().values();
            let answer = Answer::accepted(&[1, lg, valid, items]);
            LentTable::expected(answer, table.left_in(memory))
        }
    }
}

pub fn insert(record: Record, memory: &Memory, item: u32) -> LentTable {
    after_change(inserted(record, memory, item), memory)
}

pub fn delete(record: Record, memory: &Memory, item: u32) -> LentTable {
    after_change(deleted(record, memory, item), memory)
}

/// The least lg from 2 up with 4·n <= 3·2^lg.
pub fn least_lg(items: usize) -> u8 {
    let mut lg = 2;
    while 4 * items as u64 > 3 << lg {
        lg += 1;
    }
    lg
}

/// 2, then valid bits outside 3..32 (15), 4, first bad item (10, 12), 13, 5, 11.
fn built(valid: u8, list: &[u32], memory: &Memory) -> Result<Slots, Answer> {
    judged_lengths(memory)?;
    refuse_if(!(3..=32).contains(&valid), 15)?;
    refuse_if(list.len() as u64 > MOST_PAIRS, 4)?;
    for (place, &item) in list.iter().enumerate() {
        judged_item(item, valid, place)?;
    }
    let lg = least_lg(list.len());
    judged_growth(lg, valid, memory)?;
    let mut table = Slots::empty(lg, valid);
    let mut seen = HashSet::new();
    for (place, &item) in list.iter().enumerate() {
        if !seen.insert(item) {
            return Err(Answer::refused_at(11, place as u64));
        }
        table.store(item);
    }
    Ok(table)
}

/// A duplicate leaves region and spare all empty slots.
pub fn build(valid: u8, list: &[u32], memory: &Memory) -> LentTable {
    match built(valid, list, memory) {
        Ok(table) => {
            let answer = Answer::accepted(&table.record().values());
            LentTable::expected(answer, table.left_in(memory))
        }
        Err(refused) if refused.number == 11 => LentTable::expected(refused, emptied(memory)),
        Err(refused) => LentTable::expected(refused, memory.clone()),
    }
}

fn made(lg: u8, valid: u8, memory: &Memory) -> Result<(), Answer> {
    judged_lengths(memory)?;
    refuse_if(!is_sized(lg, valid), 15)?;
    refuse_if(memory.region.len() < 1 << lg, 5)
}

/// An empty table of this lg, if it is not refused.
fn without_items(judged: Result<(), Answer>, lg: u8, valid: u8, memory: &Memory) -> LentTable {
    match judged {
        Ok(()) => {
            let answer = Answer::accepted(&[lg.into(), valid.into(), 0]);
            LentTable::expected(answer, emptied(memory))
        }
        Err(refused) => LentTable::expected(refused, memory.clone()),
    }
}

pub fn new(lg: u8, valid: u8, memory: &Memory) -> LentTable {
    without_items(made(lg, valid, memory), lg, valid, memory)
}

pub fn clear(record: Record, memory: &Memory) -> LentTable {
    let judged = judged_table(record, memory).map(drop);
    without_items(judged, record.lg, record.valid, memory)
}

/// Before the first empty slot, items with bit v-1 set go to the end backwards.
fn extraction(table: &Slots) -> Vec<u32> {
    let is_empty = |&slot: &u32| slot == RESERVED;
    let first_empty = table.slots.iter().position(is_empty);
    let (front, rest) = table.slots.split_at(first_empty.expect("never full"));
    let is_high = |&item: &u32| item >> (table.valid - 1) & 1 == 1;
    let (high, low): (Vec<u32>, Vec<u32>) = front.iter().partition(|item| is_high(item));
    let rest = rest.iter().copied().filter(|slot| !is_empty(slot));
    low.into_iter()
        .chain(rest)
        .chain(high.into_iter().rev())
        .collect()
}

/// Floor(6180339887498949·2^lg / 10^16), plus one if even.
fn stride(lg: u8) -> usize {
    let floor = (6_180_339_887_498_949_u128 << lg) / 10_u128.pow(16);
    (floor | 1) as usize
}

/// From slot 0 by the stride, each slot once.
fn walked(table: &Slots) -> Vec<u32> {
    let (slots, stride) = (table.slots.len(), stride(table.lg));
    let slot = |step| table.slots[step * stride % slots];
    (0..slots)
        .map(slot)
        .filter(|&slot| slot != RESERVED)
        .collect()
}

/// 2, 15, 5: the items go to the front of the output.
fn listed(record: Record, memory: &Memory, order: fn(&Slots) -> Vec<u32>) -> LentTable {
    let fits = |table: Slots| {
        refuse_if(memory.out.len() < record.items as usize, 5)?;
        Ok(order(&table))
    };
    match judged_table(record, memory).and_then(fits) {
        Ok(items) => {
            let mut left = memory.clone();
            left.out[..items.len()].copy_from_slice(&items);
            LentTable::expected(Answer::accepted(&[record.items.into()]), left)
        }
        Err(refused) => LentTable::expected(refused, memory.clone()),
    }
}

pub fn extract(record: Record, memory: &Memory) -> LentTable {
    listed(record, memory, extraction)
}

pub fn walk(record: Record, memory: &Memory) -> LentTable {
    listed(record, memory, walked)
}

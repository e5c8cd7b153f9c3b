//! The Rust's `PairTable`, and its walk. A table is handed over by its fields and taken back by them, so
//! that a call which panics spoils none.

use datasketches::cpc::CpcSketch;

use super::Said;
use super::listen;
use crate::answer::Spoken;
use crate::lent_tables::Record;
use crate::lent_tables::SpokenTable;
use crate::lent_tables::Table;
use crate::plain_reading::tables::least_lg;

/// lg, valid bits, items, slots.
type Fields = (u8, u8, u32, Vec<u32>);

/// Only the table's own slots.
fn fields(table: &Table) -> Fields {
    let Record { lg, valid, items } = table.record;
    (lg, valid, items, table.slots().to_vec())
}

fn spoken(changed: bool, (lg, valid, items, region): Fields) -> SpokenTable {
    let record = Record { lg, valid, items };
    SpokenTable::Table {
        changed,
        table: Table { record, region },
    }
}

pub fn new(lg: u8, valid: u8) -> Said<SpokenTable> {
    listen(|| spoken(true, CpcSketch::inside().table_new(lg, valid)))
}

/// `from_slots` takes an lg_k, and has 6 valid bits more. Where that is none, its loop stands in for it.
pub fn build(valid: u8, list: &[u32]) -> Said<SpokenTable> {
    listen(|| match valid.checked_sub(6) {
        Some(lg_k) => from_slots(lg_k, list),
        None => insert_one_by_one(valid, list),
    })
}

fn from_slots(lg_k: u8, list: &[u32]) -> SpokenTable {
    match CpcSketch::inside().table_from_slots(lg_k, list.to_vec()) {
        Ok(fields) => spoken(true, fields),
        Err(error) => SpokenTable::Refusal(number_of(error.message())),
    }
}

fn insert_one_by_one(valid: u8, list: &[u32]) -> SpokenTable {
    let inside = CpcSketch::inside();
    let mut table = inside.table_new(least_lg(list.len()), valid);
    let all_are_new = list
        .iter()
        .all(|&item| inside.table_insert(&mut table, item));
    match all_are_new {
        true => spoken(true, table),
        false => SpokenTable::Refusal(11),
    }
}

/// Document 01's number for what `from_slots` says.
fn number_of(message: &str) -> u32 {
    match message {
        "CPC pair table contains a duplicate pair" => 11,
        "CPC pair table is too large" => 13,
        other => panic!("document 01 has no number for: {other}"),
    }
}

pub fn insert(table: &Table, item: u32) -> Said<SpokenTable> {
    let mut fields = fields(table);
    listen(move || {
        let changed = CpcSketch::inside().table_insert(&mut fields, item);
        spoken(changed, fields)
    })
}

pub fn delete(table: &Table, item: u32) -> Said<SpokenTable> {
    let mut fields = fields(table);
    listen(move || {
        let changed = CpcSketch::inside().table_delete(&mut fields, item);
        spoken(changed, fields)
    })
}

pub fn clear(table: &Table) -> Said<SpokenTable> {
    let mut fields = fields(table);
    listen(move || {
        CpcSketch::inside().table_clear(&mut fields);
        spoken(true, fields)
    })
}

pub fn extract(table: &Table) -> Said<Spoken<u32>> {
    let mut fields = fields(table);
    listen(|| CpcSketch::inside().table_items(&mut fields)).map(Spoken::Items)
}

pub fn walk(table: &Table) -> Said<Spoken<u32>> {
    let mut fields = fields(table);
    listen(|| CpcSketch::inside().table_walk(&mut fields)).map(Spoken::Items)
}

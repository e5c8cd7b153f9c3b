//! Pair tables: some sequences of inserts and deletes, each with the tables that the Rust leaves, and the
//! listings of these; builds.

use std::fmt::Write;

use super::BEFORE;
use super::before_and_after;
use crate::compare::streams::lists::SPREADS;
use crate::compare::streams::lists::increasing;
use crate::compare::tables::sequences::Lying;
use crate::lent_tables::SpokenTable;
use crate::lent_tables::Table;
use crate::listed::Listed;
use crate::plain_reading::pair_lists::RESERVED;
use crate::plain_reading::tables::least_lg;
use crate::random::Random;
use crate::rust::Said;
use crate::rust::tables as rust;

/// The slots of each region.
const LENGTH: usize = 32;

pub fn write(text: &mut String) {
    let mut random = Random::new(14);
    for (lg, valid, lying) in [
        (2, 10, Lying::Anywhere),
        (3, 6, Lying::AtEnds),
        (5, 32, Lying::Together),
    ] {
        write_sequence(text, Table::empty(lg, valid, LENGTH), lying, &mut random);
    }
    for valid in [6, 10, 32] {
        for count in [0, 3, 4, 11, 24] {
            let spread = SPREADS[random.below(3) as usize];
            let mut list = increasing((1 << valid) - 1, count, spread, &mut random);
            write_build(text, valid, &list);
            random.shuffle(&mut list);
            write_build(text, valid, &list);
        }
    }
}

/// As in the stored cases: so many empty slots are `_` and their number.
fn slots(region: &[u32]) -> String {
    let run = |run: &[u32]| match run[0] {
        RESERVED => format!("_{}", run.len()),
        _ => Listed::of(run).whole(),
    };
    let runs = region.chunk_by(|one, next| (*one == RESERVED) == (*next == RESERVED));
    runs.map(run).collect::<Vec<String>>().join(",")
}

/// Whether the Rust changed a table, and the table in a region of the usual length.
fn left(said: Said<SpokenTable>) -> (bool, Table) {
    let Said::Value(SpokenTable::Table { changed, mut table }) = said else {
        panic!("the Rust does not take what is lawful");
    };
    table.region.resize(LENGTH, RESERVED);
    (changed, table)
}

/// Inserts until the table is nearly full, deletes until it is nearly empty.
fn write_sequence(text: &mut String, mut table: Table, lying: Lying, random: &mut Random) {
    let valid = table.record.valid;
    let (_, new) = left(rust::new(table.record.lg, valid));
    writeln!(
        text,
        "table_new {} {valid} {BEFORE}x{LENGTH} {BEFORE}x{LENGTH} = 0 0 0 {} ; _{LENGTH} ; _{LENGTH}",
        table.record.lg, new.record
    )
    .unwrap();
    for step in 0..40 {
        let does_insert = step < 20;
        let item = match does_insert && step % 5 != 4 {
            true => lying.item_below(valid, LENGTH as u64, random),
            false => table.any_held(random),
        };
        table = write_change(text, &table, does_insert, item);
        if step % 6 == 5 {
            write_listings(text, &table);
        }
        if table.record.items == 0 {
            break;
        }
        if step == 25 {
            write_clear(text, &table);
        }
    }
}

fn write_clear(text: &mut String, table: &Table) {
    let (_, cleared) = left(rust::clear(table));
    writeln!(
        text,
        "table_clear {} {} {BEFORE}x{LENGTH} = 0 0 0 {} ; {} ; _{LENGTH}",
        table.record,
        slots(&table.region),
        cleared.record,
        slots(&cleared.region)
    )
    .unwrap();
}

fn write_change(text: &mut String, before: &Table, does_insert: bool, item: u32) -> Table {
    let (name, said) = match does_insert {
        true => ("table_insert", rust::insert(before, item)),
        false => ("table_delete", rust::delete(before, item)),
    };
    let (changed, after) = left(said);
    let (values, spare) = match changed {
        true => (format!("1 {}", after.record), format!("_{LENGTH}")),
        false => ("0".to_string(), format!("{BEFORE}x{LENGTH}")),
    };
    writeln!(
        text,
        "{name} {} {} {BEFORE}x{LENGTH} {item} = 0 0 0 {values} ; {} ; {spare}",
        before.record,
        slots(&before.region),
        slots(&after.region)
    )
    .unwrap();
    after
}

fn write_listings(text: &mut String, table: &Table) {
    for (name, said) in [
        ("table_extract", rust::extract(table)),
        ("table_walk", rust::walk(table)),
    ] {
        let items = said.items();
        let (before, after) = before_and_after(&items);
        writeln!(
            text,
            "{name} {} {} {BEFORE}x{LENGTH} {before} = 0 0 0 {} ; {after}",
            table.record,
            slots(&table.region),
            items.len()
        )
        .unwrap();
    }
}

/// In a region of the usual length.
fn write_build(text: &mut String, valid: u8, list: &[u32]) {
    assert!(1 << least_lg(list.len()) <= LENGTH);
    let (_, built) = left(rust::build(valid, list));
    writeln!(
        text,
        "table_build {valid} {} {BEFORE}x{LENGTH} {BEFORE}x{LENGTH} = 0 0 0 {} ; {} ; _{LENGTH}",
        Listed::of(list).whole(),
        built.record,
        slots(&built.region)
    )
    .unwrap();
}

//! The calls on anything that can be lent, lawful or not, against the plain reading alone: the Rust is
//! lent no tables.

use std::fmt;

use crate::cases::AgainstReading;
use crate::lent_tables::Memory;
use crate::lent_tables::Record;
use crate::lent_tables::Table;
use crate::lent_tables::lend_table;
use crate::listed::Listed;
use crate::ours::tables as ours;
use crate::plain_reading::tables as reading;

/// Each call's cases.
pub struct LentCalls {
    new: AgainstReading,
    build: AgainstReading,
    insert: AgainstReading,
    delete: AgainstReading,
    extract: AgainstReading,
    walk: AgainstReading,
    clear: AgainstReading,
}

impl LentCalls {
    pub fn new() -> Self {
        Self {
            new: AgainstReading::new("table_new, wrong parts"),
            build: AgainstReading::new("table_build, wrong parts"),
            insert: AgainstReading::new("table_insert, wrong parts"),
            delete: AgainstReading::new("table_delete, wrong parts"),
            extract: AgainstReading::new("table_extract, wrong parts"),
            walk: AgainstReading::new("table_walk, wrong parts"),
            clear: AgainstReading::new("table_clear, wrong parts"),
        }
    }

    pub fn finish(self) {
        let changes = [self.new, self.build, self.insert, self.delete];
        let rest = [self.extract, self.walk, self.clear];
        for cases in changes.into_iter().chain(rest) {
            cases.finish();
        }
    }

    pub fn judge_new(&mut self, lg: u8, valid: u8, memory: &Memory) {
        let ours = lend_table(memory, |region, spare, _| {
            ours::new(lg, valid, region, spare)
        });
        let (region, spare) = (memory.region.len(), memory.spare.len());
        let input = format_args!("{lg} {valid}, region of {region}, spare of {spare}");
        self.new.judge(input, ours, reading::new(lg, valid, memory));
    }

    pub fn judge_build(&mut self, valid: u8, list: &[u32], memory: &Memory) {
        let ours = lend_table(memory, |region, spare, _| {
            ours::build(valid, list, region, spare)
        });
        let (region, spare) = (memory.region.len(), memory.spare.len());
        let (first, count) = (&list[..list.len().min(20)], list.len());
        let input =
            format_args!("{valid} {first:?} (of {count}), region of {region}, spare of {spare}");
        self.build
            .judge(input, ours, reading::build(valid, list, memory));
    }

    pub fn judge_insert(&mut self, record: Record, memory: &Memory, item: u32) {
        let ours = lend_table(memory, |region, spare, _| {
            ours::insert(record, region, spare, item)
        });
        let reading = reading::insert(record, memory, item);
        let input = format_args!("{}, item {item}", Told(record, memory));
        self.insert.judge(input, ours, reading);
    }

    pub fn judge_delete(&mut self, record: Record, memory: &Memory, item: u32) {
        let ours = lend_table(memory, |region, spare, _| {
            ours::delete(record, region, spare, item)
        });
        let reading = reading::delete(record, memory, item);
        let input = format_args!("{}, item {item}", Told(record, memory));
        self.delete.judge(input, ours, reading);
    }

    /// Extraction, walk and clear.
    pub fn judge_whole(&mut self, record: Record, memory: &Memory) {
        let ours = lend_table(memory, |region, spare, out| {
            ours::extract(record, region, spare, out)
        });
        let input = Told(record, memory);
        self.extract
            .judge(&input, ours, reading::extract(record, memory));
        let ours = lend_table(memory, |region, spare, out| {
            ours::walk(record, region, spare, out)
        });
        self.walk.judge(&input, ours, reading::walk(record, memory));
        let ours = lend_table(memory, |region, spare, _| {
            ours::clear(record, region, spare)
        });
        self.clear
            .judge(&input, ours, reading::clear(record, memory));
    }

    /// Every call that is lent a table, with some items, and with room for what it claims to hold.
    pub fn judge_table(&mut self, table: &Table, items: &[u32]) {
        let room = (table.record.items as usize).min(table.region.len());
        let memory = Memory::around(&table.region, room);
        self.judge_whole(table.record, &memory);
        for &item in items {
            self.judge_insert(table.record, &memory, item);
            self.judge_delete(table.record, &memory, item);
        }
    }
}

/// A lent table as it is told if the sides part, and not before: it can be long.
struct Told<'a>(Record, &'a Memory);

impl fmt::Display for Told<'_> {
    fn fmt(&self, f: &mut fmt::Formatter<'_>) -> fmt::Result {
        let Told(record, memory) = self;
        let (spare, room) = (memory.spare.len(), memory.out.len());
        let region = Listed::of(&memory.region);
        write!(f, "{record} {region}, spare of {spare}, room {room}")
    }
}

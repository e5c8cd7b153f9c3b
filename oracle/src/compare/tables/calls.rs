//! The calls on lawful tables, each against the Rust. A spare and an output hold garbage before.

use super::inputs::BUILD_CLASSES;
use super::inputs::BuildInput;
use super::inputs::ChangeInput;
use super::inputs::DELETE_CLASSES;
use super::inputs::INSERT_CLASSES;
use super::inputs::LISTING_CLASSES;
use super::inputs::NEW_CLASSES;
use super::inputs::NewInput;
use super::inputs::WholeInput;
use crate::answer::Answer;
use crate::answer::Spoken;
use crate::cases::AgainstRust;
use crate::cases::Kind;
use crate::cases::RustAnswers;
use crate::cases::Sides;
use crate::lent_tables::LentTable;
use crate::lent_tables::Memory;
use crate::lent_tables::Record;
use crate::lent_tables::SpokenTable;
use crate::lent_tables::Table;
use crate::lent_tables::lend_table;
use crate::listed::Listed;
use crate::ours::tables as ours;
use crate::plain_reading::tables as reading;
use crate::rust::Said;
use crate::rust::tables as rust;

/// Each call's cases.
pub struct Calls<'a> {
    new: AgainstRust<'a, NewInput>,
    build: AgainstRust<'a, BuildInput>,
    insert: ChangeCall<'a>,
    delete: ChangeCall<'a>,
    extract: ListingCall<'a>,
    walk: ListingCall<'a>,
    clear: AgainstRust<'a, WholeInput>,
}

impl<'a> Calls<'a> {
    pub fn new(rust_answers: &'a RustAnswers) -> Self {
        Self {
            new: AgainstRust::new("table_new", NEW_CLASSES, rust_answers),
            build: AgainstRust::new("table_build", BUILD_CLASSES, rust_answers),
            insert: ChangeCall {
                cases: AgainstRust::new("table_insert", INSERT_CLASSES, rust_answers),
                ours: ours::insert,
                reading: reading::insert,
                rust: rust::insert,
            },
            delete: ChangeCall {
                cases: AgainstRust::new("table_delete", DELETE_CLASSES, rust_answers),
                ours: ours::delete,
                reading: reading::delete,
                rust: rust::delete,
            },
            extract: ListingCall {
                cases: AgainstRust::new("table_extract", LISTING_CLASSES, rust_answers),
                ours: ours::extract,
                reading: reading::extract,
                rust: rust::extract,
            },
            walk: ListingCall {
                cases: AgainstRust::new("table_walk", LISTING_CLASSES, rust_answers),
                ours: ours::walk,
                reading: reading::walk,
                rust: rust::walk,
            },
            clear: AgainstRust::new("table_clear", &[], rust_answers),
        }
    }

    pub fn finish(self) {
        self.new.finish();
        self.build.finish();
        self.insert.cases.finish();
        self.delete.cases.finish();
        self.extract.cases.finish();
        self.walk.cases.finish();
        self.clear.finish();
    }

    /// In a region of so many slots, which held garbage.
    pub fn judge_new(&mut self, lg: u8, valid: u8, length: usize, kind: Kind) {
        let memory = Memory::around(&garbage(length), 0);
        let ours = lend_table(&memory, |region, spare, _| {
            ours::new(lg, valid, region, spare)
        });
        let reading = reading::new(lg, valid, &memory);
        let sides = made(ours, reading, rust::new(lg, valid));
        self.new.judge(NewInput { lg, valid, length }, kind, sides);
    }

    /// A list in a region of so many slots, which held garbage. The table, if there is one.
    pub fn judge_build(
        &mut self,
        valid: u8,
        list: &[u32],
        length: usize,
        kind: Kind,
    ) -> Option<Table> {
        let memory = Memory::around(&garbage(length), 0);
        let ours = lend_table(&memory, |region, spare, _| {
            ours::build(valid, list, region, spare)
        });
        let built = (ours.answer.number == 0).then(|| table_left(&ours, 0));
        let reading = reading::build(valid, list, &memory);
        let sides = made(ours, reading, rust::build(valid, list));
        let list = Listed::of(list);
        let input = BuildInput {
            valid,
            list,
            length,
        };
        self.build.judge(input, kind, sides);
        built
    }

    /// The table as it is left.
    pub fn judge_insert(&mut self, table: &Table, item: u32, kind: Kind) -> Table {
        self.insert.judge(table, item, kind)
    }

    /// The table as it is left.
    pub fn judge_delete(&mut self, table: &Table, item: u32, kind: Kind) -> Table {
        self.delete.judge(table, item, kind)
    }

    pub fn judge_clear(&mut self, table: &Table, kind: Kind) {
        let memory = Memory::around(&table.region, 0);
        let ours = lend_table(&memory, |region, spare, _| {
            ours::clear(table.record, region, spare)
        });
        let reading = reading::clear(table.record, &memory);
        let sides = made(ours, reading, rust::clear(table));
        self.clear.judge(WholeInput::new(table, 0), kind, sides);
    }

    /// Both listings, into an output with room for so many.
    pub fn judge_listings(&mut self, table: &Table, room: usize, kind: Kind) {
        self.extract.judge(table, room, kind);
        self.walk.judge(table, room, kind);
    }
}

/// What a region may hold before it becomes a table.
fn garbage(length: usize) -> Vec<u32> {
    (0..length as u32)
        .map(|slot| slot.wrapping_mul(0x9e37_79b9))
        .collect()
}

/// The table that a call left, whose record stands among the values from one on.
fn table_left(ours: &LentTable, first: usize) -> Table {
    Table {
        record: Record::of_values(&ours.answer.values[first..]),
        region: ours.memory.region.clone(),
    }
}

/// As much of an answer as the Rust speaks of: the slots alone.
fn spoken(ours: &LentTable, first: usize) -> SpokenTable {
    match ours.answer.number {
        0 => {
            let mut table = table_left(ours, first);
            let slots = 1u64.checked_shl(table.record.lg.into()).unwrap_or(0);
            table.region.truncate(slots as usize);
            SpokenTable::Table {
                changed: true,
                table,
            }
        }
        number => SpokenTable::Refusal(number),
    }
}

/// The sides of a call that makes a table, whose record is all that it answers.
fn made(
    ours: LentTable,
    reading: LentTable,
    rust: Said<SpokenTable>,
) -> Sides<LentTable, SpokenTable> {
    Sides {
        spoken: spoken(&ours, 0),
        ours,
        reading,
        rust,
    }
}

/// Insert or delete, on all sides.
struct ChangeCall<'a> {
    cases: AgainstRust<'a, ChangeInput>,
    ours: fn(Record, &mut [u32], &mut [u32], u32) -> Answer,
    reading: fn(Record, &Memory, u32) -> LentTable,
    rust: fn(&Table, u32) -> Said<SpokenTable>,
}

impl ChangeCall<'_> {
    fn judge(&mut self, table: &Table, item: u32, kind: Kind) -> Table {
        let memory = Memory::around(&table.region, 0);
        let ours = lend_table(&memory, |region, spare, _| {
            (self.ours)(table.record, region, spare, item)
        });
        let is_false = ours.answer == Answer::accepted(&[0]);
        let after = match ours.answer.number {
            0 if !is_false => table_left(&ours, 1),
            _ => table.clone(),
        };
        let said = match is_false {
            true => unchanged(table),
            false => spoken(&ours, 1),
        };
        let sides = Sides {
            spoken: said,
            reading: (self.reading)(table.record, &memory, item),
            rust: (self.rust)(table, item),
            ours,
        };
        let input = ChangeInput::new(table, item);
        self.cases.judge(input, kind, sides);
        after
    }
}

fn unchanged(table: &Table) -> SpokenTable {
    let slots = Table {
        record: table.record,
        region: table.slots().to_vec(),
    };
    SpokenTable::Table {
        changed: false,
        table: slots,
    }
}

/// Extraction or walk, on all sides.
struct ListingCall<'a> {
    cases: AgainstRust<'a, WholeInput>,
    ours: fn(Record, &[u32], &[u32], &mut [u32]) -> Answer,
    reading: fn(Record, &Memory) -> LentTable,
    rust: fn(&Table) -> Said<Spoken<u32>>,
}

impl ListingCall<'_> {
    fn judge(&mut self, table: &Table, room: usize, kind: Kind) {
        let memory = Memory::around(&table.region, room);
        let ours = lend_table(&memory, |region, spare, out| {
            (self.ours)(table.record, region, spare, out)
        });
        let items = ours.answer.values[0] as usize;
        let spoken = match ours.answer.number {
            0 => Spoken::Items(ours.memory.out[..items.min(room)].to_vec()),
            number => Spoken::Refusal(number),
        };
        let sides = Sides {
            spoken,
            reading: (self.reading)(table.record, &memory),
            rust: (self.rust)(table),
            ours,
        };
        let input = WholeInput::new(table, room);
        self.cases.judge(input, kind, sides);
    }
}

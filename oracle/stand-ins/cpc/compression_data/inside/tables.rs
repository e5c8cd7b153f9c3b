//! The pair table, whose fields are private to its file, and the walk over it, which is private to
//! `union.rs`. Each is the crate's own text a second time.

use std::mem::take;

use self::pair_table_again::PairTable;
use super::Inside;
use crate::error::Error;

/// The four fields of a `PairTable`, in their order: lg_size, num_valid_bits, num_items, slots.
type Fields = (u8, u8, u32, Vec<u32>);

/// `pair_table.rs`, with the way from a table to its fields and back inside it.
#[allow(dead_code)]
mod pair_table_again {
    include!("../../pair_table.rs");

    impl PairTable {
        pub fn of_fields((lg_size, num_valid_bits, num_items, slots): super::Fields) -> Self {
            Self {
                lg_size,
                num_valid_bits,
                num_items,
                slots,
            }
        }

        pub fn into_fields(self) -> super::Fields {
            (
                self.lg_size,
                self.num_valid_bits,
                self.num_items,
                self.slots,
            )
        }
    }
}

/// `walk_table_updating_sketch` as `prepare` cuts it out of `union.rs`, over a sketch that keeps what it
/// is handed and does nothing else.
mod walk_again {
    use super::PairTable;

    pub struct CpcSketch {
        pub updates: Vec<u32>,
    }

    impl CpcSketch {
        /// With so many rows no item is folded.
        fn lg_k(&self) -> u8 {
            26
        }

        fn row_col_update(&mut self, row_col: u32) {
            self.updates.push(row_col);
        }
    }

    include!("walk_table_updating_sketch.rs");

    pub fn walk(table: &PairTable, most: u32) -> Vec<u32> {
        let mut sketch = CpcSketch {
            updates: Vec::with_capacity(most as usize),
        };
        walk_table_updating_sketch(&mut sketch, table);
        sketch.updates
    }
}

/// A call on the table of these fields, which are then the table's again. A panic leaves none.
fn on_table<A>(fields: &mut Fields, call: impl FnOnce(&mut PairTable) -> A) -> A {
    let mut table = PairTable::of_fields(take(fields));
    let answer = call(&mut table);
    *fields = table.into_fields();
    answer
}

impl Inside {
    pub fn table_new(&self, lg_size: u8, num_valid_bits: u8) -> Fields {
        PairTable::new(lg_size, num_valid_bits).into_fields()
    }

    pub fn table_from_slots(&self, lg_size: u8, items: Vec<u32>) -> Result<Fields, Error> {
        let table = PairTable::from_slots(lg_size, items.len() as u32, items)?;
        Ok(table.into_fields())
    }

    pub fn table_insert(&self, fields: &mut Fields, item: u32) -> bool {
        on_table(fields, |table| table.maybe_insert(item))
    }

    pub fn table_delete(&self, fields: &mut Fields, item: u32) -> bool {
        on_table(fields, |table| table.maybe_delete(item))
    }

    pub fn table_clear(&self, fields: &mut Fields) {
        on_table(fields, PairTable::clear);
    }

    pub fn table_items(&self, fields: &mut Fields) -> Vec<u32> {
        on_table(fields, |table| table.unwrapping_get_items())
    }

    pub fn table_walk(&self, fields: &mut Fields) -> Vec<u32> {
        let most = fields.2;
        on_table(fields, |table| walk_again::walk(table, most))
    }
}

//! The pair table: a set of items in lent memory.
//!
//! A table is its record, [`Table`], with a region and a spare of the same length, which the caller lends to every call. The slots are the region's
//! first 2^lg; the rest of it is empty slots. The spare holds anything before a call, and is all empty slots after every call that made or
//! changed a table. Each call judges the table whole before it relies on it, so that an insert costs a pass over the region.

use crate::Refused;
use crate::asking::Values;
use crate::asking::ask;
use crate::raw;
use crate::telling::of_listing;
use crate::telling::of_table;
use crate::telling::of_table_build;

/// What a table is described by, besides its region and spare.
#[derive(Clone, Copy, PartialEq, Eq, Hash, Debug)]
pub struct Table {
    /// There are 2^lg slots, lg 2 to 26.
    pub lg: u8,
    /// Items are below 2^(valid bits); lg + 1 to 32.
    pub valid_bits: u8,
    /// How many there are.
    pub items: u32,
}

impl Table {
    fn of_values(values: &[u64]) -> Self {
        Self {
            lg: values[0] as u8,
            valid_bits: values[1] as u8,
            items: values[2] as u32,
        }
    }
}

/// An empty table of 2^lg slots; region and spare become all empty slots.
///
/// Refuses by 2 if region and spare differ in length; 15 if lg is outside 2..26 or the valid bits outside lg + 1..32; 5 if the region is shorter
/// than the slots. Region and spare then stay as they were.
pub fn new(
    lg: u8,
    valid_bits: u8,
    region: &mut [u32],
    spare: &mut [u32],
) -> Result<Table, Refused> {
    ask(of_table, |answer| unsafe {
        raw::bridgenook_table_new(
            lg,
            valid_bits,
            region.as_mut_ptr(),
            region.len(),
            spare.as_mut_ptr(),
            spare.len(),
            answer,
        )
    })
    .map(|values| Table::of_values(&values))
}

/// A table of the listed items, with the least lg from 2 up whose slots are three quarters full at the most.
///
/// Refuses by 2; 15 if the valid bits are outside 3..32; 4; for the first bad item by 10, 12; 13; 5 if the region is shorter than the slots; 11 with the
/// first item that stands earlier in the list. On 11 region and spare are all empty slots; on any other refusal they stay as they were.
///
/// ```
/// use bridgenook::{RESERVED, tables};
/// let (mut region, mut spare) = ([0; 4], [0; 4]);
/// let table = tables::build(10, &[900, 300, 600], &mut region, &mut spare).unwrap();
/// assert_eq!((table.lg, table.items), (2, 3));
/// assert_eq!(region, [RESERVED, 300, 600, 900]);
/// ```
pub fn build(
    valid_bits: u8,
    list: &[u32],
    region: &mut [u32],
    spare: &mut [u32],
) -> Result<Table, Refused> {
    ask(of_table_build, |answer| unsafe {
        raw::bridgenook_table_build(
            valid_bits,
            list.as_ptr(),
            list.len(),
            region.as_mut_ptr(),
            region.len(),
            spare.as_mut_ptr(),
            spare.len(),
            answer,
        )
    })
    .map(|values| Table::of_values(&values))
}

/// Adds an item and answers true, or answers false if it is there already. The table doubles once more than three quarters of its slots are full.
///
/// Refuses by 2; 15 if the table is not lawful; 10; 12; then, only if the item is absent and the table must grow, 13, and 5 if the region is
/// shorter than the new slots. Where the answer is false or a refusal, record, region and spare stay as they were.
///
/// ```
/// use bridgenook::tables;
/// let (mut region, mut spare) = ([0; 8], [0; 8]);
/// let mut table = tables::new(2, 10, &mut region, &mut spare).unwrap();
/// for item in [300, 600, 900, 1000] {
///     assert_eq!(tables::insert(&mut table, &mut region, &mut spare, item), Ok(true));
/// }
/// assert_eq!(tables::insert(&mut table, &mut region, &mut spare, 600), Ok(false));
/// assert_eq!((table.lg, table.items), (3, 4)); // the fourth item made 8 slots of 4
/// ```
pub fn insert(
    table: &mut Table,
    region: &mut [u32],
    spare: &mut [u32],
    item: u32,
) -> Result<bool, Refused> {
    change(raw::bridgenook_table_insert, table, (region, spare), item)
}

/// Removes an item and answers true, or answers false if it is not there. The table halves while less than a quarter of its slots are full, down to 4.
///
/// Refuses by 2; 15; 10; 12. Where the answer is false or a refusal, record, region and spare stay as they were.
pub fn delete(
    table: &mut Table,
    region: &mut [u32],
    spare: &mut [u32],
    item: u32,
) -> Result<bool, Refused> {
    change(raw::bridgenook_table_delete, table, (region, spare), item)
}

fn change(
    call: raw::TableChange,
    table: &mut Table,
    (region, spare): (&mut [u32], &mut [u32]),
    item: u32,
) -> Result<bool, Refused> {
    let [changed, record @ ..]: Values = ask(of_table, |answer| unsafe {
        call(
            table.lg,
            table.valid_bits,
            table.items,
            region.as_mut_ptr(),
            region.len(),
            spare.as_mut_ptr(),
            spare.len(),
            item,
            answer,
        )
    })?;
    if changed == 0 {
        return Ok(false);
    }
    *table = Table::of_values(&record);
    Ok(true)
}

/// Lists the items at the front of `out`, in slot order, but for those that wrapped past the last slot, which go to the end backwards; answers how
/// many there are.
///
/// Refuses by 2; 15; 5 if `out` is shorter than the items. What follows the items stays, and on a refusal all of `out`. Of the spare only the length counts.
pub fn extract(
    table: &Table,
    region: &[u32],
    spare: &[u32],
    out: &mut [u32],
) -> Result<u32, Refused> {
    list(raw::bridgenook_table_extract, table, (region, spare), out)
}

/// Lists the items at the front of `out`, in the order of the merge walk from slot 0; answers how many there are. Refuses as [`extract`], and leaves
/// what that leaves.
pub fn walk(table: &Table, region: &[u32], spare: &[u32], out: &mut [u32]) -> Result<u32, Refused> {
    list(raw::bridgenook_table_walk, table, (region, spare), out)
}

fn list(
    call: raw::TableListing,
    table: &Table,
    (region, spare): (&[u32], &[u32]),
    out: &mut [u32],
) -> Result<u32, Refused> {
    ask(of_listing, |answer| unsafe {
        call(
            table.lg,
            table.valid_bits,
            table.items,
            region.as_ptr(),
            region.len(),
            spare.as_ptr(),
            spare.len(),
            out.as_mut_ptr(),
            out.len(),
            answer,
        )
    })
    .map(|values| values[0] as u32)
}

/// Takes all items out; lg stays, and region and spare become all empty slots. Refuses by 2; 15. Record, region and spare then stay as they were.
pub fn clear(table: &mut Table, region: &mut [u32], spare: &mut [u32]) -> Result<(), Refused> {
    let values = ask(of_table, |answer| unsafe {
        raw::bridgenook_table_clear(
            table.lg,
            table.valid_bits,
            table.items,
            region.as_mut_ptr(),
            region.len(),
            spare.as_mut_ptr(),
            spare.len(),
            answer,
        )
    })?;
    *table = Table::of_values(&values);
    Ok(())
}

//! The calls on a pair table.

use bridgenook::raw;

use super::answered;
use crate::answer::Answer;
use crate::lent_tables::Record;

pub fn new(lg: u8, valid: u8, region: &mut [u32], spare: &mut [u32]) -> Answer {
    answered(|answer| unsafe {
        raw::bridgenook_table_new(
            lg,
            valid,
            region.as_mut_ptr(),
            region.len(),
            spare.as_mut_ptr(),
            spare.len(),
            answer,
        )
    })
}

pub fn build(valid: u8, list: &[u32], region: &mut [u32], spare: &mut [u32]) -> Answer {
    answered(|answer| unsafe {
        raw::bridgenook_table_build(
            valid,
            list.as_ptr(),
            list.len(),
            region.as_mut_ptr(),
            region.len(),
            spare.as_mut_ptr(),
            spare.len(),
            answer,
        )
    })
}

fn change(
    call: raw::TableChange,
    record: Record,
    region: &mut [u32],
    spare: &mut [u32],
    item: u32,
) -> Answer {
    let Record { lg, valid, items } = record;
    answered(|answer| unsafe {
        call(
            lg,
            valid,
            items,
            region.as_mut_ptr(),
            region.len(),
            spare.as_mut_ptr(),
            spare.len(),
            item,
            answer,
        )
    })
}

pub fn insert(record: Record, region: &mut [u32], spare: &mut [u32], item: u32) -> Answer {
    change(raw::bridgenook_table_insert, record, region, spare, item)
}

pub fn delete(record: Record, region: &mut [u32], spare: &mut [u32], item: u32) -> Answer {
    change(raw::bridgenook_table_delete, record, region, spare, item)
}

fn list(
    call: raw::TableListing,
    record: Record,
    region: &[u32],
    spare: &[u32],
    out: &mut [u32],
) -> Answer {
    let Record { lg, valid, items } = record;
    answered(|answer| unsafe {
        call(
            lg,
            valid,
            items,
            region.as_ptr(),
            region.len(),
            spare.as_ptr(),
            spare.len(),
            out.as_mut_ptr(),
            out.len(),
            answer,
        )
    })
}

pub fn extract(record: Record, region: &[u32], spare: &[u32], out: &mut [u32]) -> Answer {
    list(raw::bridgenook_table_extract, record, region, spare, out)
}

pub fn walk(record: Record, region: &[u32], spare: &[u32], out: &mut [u32]) -> Answer {
    list(raw::bridgenook_table_walk, record, region, spare, out)
}

pub fn clear(record: Record, region: &mut [u32], spare: &mut [u32]) -> Answer {
    let Record { lg, valid, items } = record;
    answered(|answer| unsafe {
        raw::bridgenook_table_clear(
            lg,
            valid,
            items,
            region.as_mut_ptr(),
            region.len(),
            spare.as_mut_ptr(),
            spare.len(),
            answer,
        )
    })
}

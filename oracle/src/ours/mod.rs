//! The calls of the static library, each as a safe function on slices.
//!
//! They are declared in the Rust bindings alone. A call fills its answer whole; it is handed one full of
//! garbage, so that an unwritten part shows.

pub mod tables;
pub mod unions;

use bridgenook::raw;
use bridgenook::raw::Filled;

use crate::answer::Answer;
use crate::plain_reading::books::Coded;

const GARBAGE: u64 = 0xa5c3_96e1_0f78_5ad2;

fn answered(call: impl FnOnce(*mut Filled) -> u32) -> Answer {
    let mut filled = [GARBAGE; 8];
    let number = call(&mut filled);
    let [place, bit, values @ ..] = filled;
    Answer {
        number,
        place,
        bit,
        values,
    }
}

// Safety, here and below: numbers pass as themselves, and a slice as its pointer and its length; the
// library reads and writes nothing outside of what it is lent.

pub fn rows(lg: u8) -> Answer {
    answered(|answer| unsafe { raw::bridgenook_rows(lg, answer) })
}

pub fn determine_flavor(lg: u8, coupons: u32) -> Answer {
    answered(|answer| unsafe { raw::bridgenook_determine_flavor(lg, coupons, answer) })
}

pub fn determine_correct_offset(lg: u8, coupons: u32) -> Answer {
    answered(|answer| unsafe { raw::bridgenook_determine_correct_offset(lg, coupons, answer) })
}

pub fn determine_pseudo_phase(lg: u8, coupons: u32) -> Answer {
    answered(|answer| unsafe { raw::bridgenook_determine_pseudo_phase(lg, coupons, answer) })
}

pub fn number_of_base_bits(lg: u8, pairs: u32) -> Answer {
    answered(|answer| unsafe { raw::bridgenook_number_of_base_bits(lg, pairs, answer) })
}

pub fn most_bits(lg: u8, pairs: u32) -> Answer {
    answered(|answer| unsafe { raw::bridgenook_most_bits(lg, pairs, answer) })
}

pub fn words_for(bits: u64) -> Answer {
    answered(|answer| unsafe { raw::bridgenook_words_for(bits, answer) })
}

pub fn bits_in(words: u64) -> Answer {
    answered(|answer| unsafe { raw::bridgenook_bits_in(words, answer) })
}

pub fn check_book(book: &[u16]) -> Answer {
    answered(|answer| unsafe { raw::bridgenook_check_book(book.as_ptr(), book.len(), answer) })
}

pub fn check_table(book: &[u16], table: &[u16]) -> Answer {
    answered(|answer| unsafe {
        raw::bridgenook_check_table(
            book.as_ptr(),
            book.len(),
            table.as_ptr(),
            table.len(),
            answer,
        )
    })
}

pub fn fill_table(book: &[u16], table: &mut [u16]) -> Answer {
    answered(|answer| unsafe {
        raw::bridgenook_fill_table(
            book.as_ptr(),
            book.len(),
            table.as_mut_ptr(),
            table.len(),
            answer,
        )
    })
}

pub fn pick(set: &[u16], phase: u8) -> Answer {
    answered(|answer| unsafe { raw::bridgenook_pick(set.as_ptr(), set.len(), phase, answer) })
}

fn hand_out(call: raw::HandOut, list: &mut [u16]) -> Answer {
    answered(|answer| unsafe { call(list.as_mut_ptr(), list.len(), answer) })
}

pub fn practice_pair_book(book: &mut [u16]) -> Answer {
    hand_out(raw::bridgenook_practice_pair_book, book)
}

pub fn practice_window_book(book: &mut [u16]) -> Answer {
    hand_out(raw::bridgenook_practice_window_book, book)
}

pub fn practice_pair_table(table: &mut [u16]) -> Answer {
    hand_out(raw::bridgenook_practice_pair_table, table)
}

pub fn judge_pairs(lg: u8, pairs: &[u32]) -> Answer {
    answered(|answer| unsafe {
        raw::bridgenook_judge_pairs(lg, pairs.as_ptr(), pairs.len(), answer)
    })
}

pub fn write_pairs(book: &[u16], lg: u8, pairs: &[u32], out: &mut [u8]) -> Answer {
    answered(|answer| unsafe {
        raw::bridgenook_write_pairs(
            book.as_ptr(),
            book.len(),
            lg,
            pairs.as_ptr(),
            pairs.len(),
            out.as_mut_ptr(),
            out.len(),
            answer,
        )
    })
}

pub fn read_pairs(coded: Coded, lg: u8, count: u32, stream: &[u8], out: &mut [u32]) -> Answer {
    answered(|answer| unsafe {
        raw::bridgenook_read_pairs(
            coded.book.as_ptr(),
            coded.book.len(),
            coded.table.as_ptr(),
            coded.table.len(),
            lg,
            count,
            stream.as_ptr(),
            stream.len(),
            out.as_mut_ptr(),
            out.len(),
            answer,
        )
    })
}

pub fn write_window(book: &[u16], lg: u8, window: &[u8], out: &mut [u8]) -> Answer {
    answered(|answer| unsafe {
        raw::bridgenook_write_window(
            book.as_ptr(),
            book.len(),
            lg,
            window.as_ptr(),
            window.len(),
            out.as_mut_ptr(),
            out.len(),
            answer,
        )
    })
}

pub fn read_window(coded: Coded, lg: u8, stream: &[u8], window: &mut [u8]) -> Answer {
    answered(|answer| unsafe {
        raw::bridgenook_read_window(
            coded.book.as_ptr(),
            coded.book.len(),
            coded.table.as_ptr(),
            coded.table.len(),
            lg,
            stream.as_ptr(),
            stream.len(),
            window.as_mut_ptr(),
            window.len(),
            answer,
        )
    })
}

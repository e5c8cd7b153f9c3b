//! Books: their check, their decoding tables, the pick by phase, and the practice books.
//!
//! A book has an entry for each symbol, length · 4096 + codeword, the length 1 to 12 and the codeword below 2^length. Its decoding table
//! holds at each number of twelve bits length · 256 + symbol of the one symbol whose codeword is the number's low bits.

use crate::Refused;
use crate::asking::ask;
use crate::raw;
use crate::telling::of_book;
use crate::telling::of_book_and_table;
use crate::telling::of_pick;

/// The entries of a book for pairs.
pub const PAIR_SYMBOLS: usize = 65;

/// The entries of a book for windows.
pub const WINDOW_SYMBOLS: usize = 256;

/// The entries of a decoding table.
pub const TABLE_ENTRIES: usize = 4096;

/// The entries of a book set: 22 window books, end to end.
pub const SET_ENTRIES: usize = 5632;

/// Whether a book passes: every entry has its shape, and each number below 4,096 has exactly one symbol whose codeword is its low bits.
///
/// Refuses by 2 if there are neither 65 nor 256 entries, then by 3 with the first symbol of wrong shape, or with none if only the book as a whole fails.
///
/// ```
/// use bridgenook::{PlaceOf, books};
/// let mut book = [0; books::PAIR_SYMBOLS];
/// books::practice_pair_book(&mut book).unwrap();
/// assert_eq!(books::check_book(&book), Ok(()));
///
/// book[7] = 0;
/// let refused = books::check_book(&book).unwrap_err();
/// assert_eq!((refused.number(), refused.place, refused.place_of()), (3, 7, Some(PlaceOf::Symbol)));
/// ```
pub fn check_book(book: &[u16]) -> Result<(), Refused> {
    ask(of_book(book), |answer| unsafe {
        raw::bridgenook_check_book(book.as_ptr(), book.len(), answer)
    })
    .map(drop)
}

/// Whether a book passes and a decoding table is its own. Refuses by 2, also if the table has not 4,096 entries, then by 3 as [`check_book`], also if the
/// table is not the book's.
pub fn check_table(book: &[u16], table: &[u16]) -> Result<(), Refused> {
    ask(of_book_and_table(book), |answer| unsafe {
        raw::bridgenook_check_table(
            book.as_ptr(),
            book.len(),
            table.as_ptr(),
            table.len(),
            answer,
        )
    })
    .map(drop)
}

/// Fills a book's decoding table, whole. Refuses by 2 as [`check_table`], then by 3 as [`check_book`]; the table then stays as it was.
///
/// ```
/// use bridgenook::books;
/// let mut book = [0; books::WINDOW_SYMBOLS];
/// let mut table = [0; books::TABLE_ENTRIES];
/// books::practice_window_book(&mut book).unwrap();
/// books::fill_table(&book, &mut table).unwrap();
/// assert_eq!(table[1], 256); // a first one: length 1, byte 0
/// assert_eq!(books::check_table(&book, &table), Ok(()));
/// ```
pub fn fill_table(book: &[u16], table: &mut [u16]) -> Result<(), Refused> {
    ask(of_book(book), |answer| unsafe {
        raw::bridgenook_fill_table(
            book.as_ptr(),
            book.len(),
            table.as_mut_ptr(),
            table.len(),
            answer,
        )
    })
    .map(drop)
}

/// The window book of a phase, as its part of the set; whether that book passes is not asked. Refuses by 2 if the set has not 5,632 entries, then by 3
/// for a phase over 21.
///
/// ```
/// use bridgenook::{books, numbers};
/// let set: Vec<u16> = (0..books::SET_ENTRIES as u16).collect();
/// let phase = numbers::determine_pseudo_phase(4, 11).unwrap();
/// assert_eq!(books::pick(&set, phase).unwrap()[0], 16 * 256);
/// ```
pub fn pick(set: &[u16], phase: u8) -> Result<&[u16], Refused> {
    let values = ask(of_pick, |answer| unsafe {
        raw::bridgenook_pick(set.as_ptr(), set.len(), phase, answer)
    })?;
    let (start, length) = (values[0] as usize, values[1] as usize);
    Ok(&set[start..start + length])
}

/// Hands out the practice book for pairs. Refuses by 2 if what is lent has not 65 entries, and then leaves it as it was.
pub fn practice_pair_book(book: &mut [u16]) -> Result<(), Refused> {
    hand_out(raw::bridgenook_practice_pair_book, book)
}

/// Hands out the practice book for windows. Refuses by 2 if what is lent has not 256 entries, and then leaves it as it was.
pub fn practice_window_book(book: &mut [u16]) -> Result<(), Refused> {
    hand_out(raw::bridgenook_practice_window_book, book)
}

/// Hands out the decoding table of the practice book for pairs; that for windows [`fill_table`] makes. Refuses by 2 if what is lent has not 4,096
/// entries, and then leaves it as it was.
pub fn practice_pair_table(table: &mut [u16]) -> Result<(), Refused> {
    hand_out(raw::bridgenook_practice_pair_table, table)
}

fn hand_out(call: raw::HandOut, list: &mut [u16]) -> Result<(), Refused> {
    ask(of_book(&[]), |answer| unsafe {
        call(list.as_mut_ptr(), list.len(), answer)
    })
    .map(drop)
}

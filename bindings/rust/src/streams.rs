//! Streams of pairs and of windows, written and read, and the judgement of a list of pairs.
//!
//! Bits fill 32-bit little-endian words from the low end; a stream is the bytes of these words. A reader looks only at whole words, and what stands after
//! the last one that it needs decides nothing. No stream of s bytes is ever accepted for more than 4s pairs, so a claim can be judged before memory is
//! reserved for it.

use crate::Bits;
use crate::PlaceOf;
use crate::Refused;
use crate::Words;
use crate::asking::Values;
use crate::asking::ask;
use crate::raw;
use crate::telling::of_book;
use crate::telling::of_list;
use crate::telling::of_reading;
use crate::telling::of_writing_pairs;

/// The length of a stream that was written.
#[derive(Clone, Copy, PartialEq, Eq, Hash, Debug)]
pub struct Written {
    /// With the pad, before the last word is filled.
    pub bits: Bits,
    /// The words at the front of the output that hold them.
    pub words: Words,
}

impl Written {
    fn of_values(values: Values) -> Self {
        Self {
            bits: Bits(values[0]),
            words: Words(values[1]),
        }
    }
}

/// Whether a list is lawful: every row below k, every pair above the one before, none the reserved number. Refuses by 1, then for the first faulty pair
/// by 8, 11, 10.
///
/// ```
/// use bridgenook::streams::judge_pairs;
/// assert_eq!(judge_pairs(4, &[5, 70, 71]), Ok(()));
/// let refused = judge_pairs(4, &[5, 70, 70]).unwrap_err();
/// assert_eq!(refused.to_string(), "refused (11): the pair is not above the one before, at pair 2");
/// ```
pub fn judge_pairs(lg_k: u8, pairs: &[u32]) -> Result<(), Refused> {
    ask(of_list, |answer| unsafe {
        raw::bridgenook_judge_pairs(lg_k, pairs.as_ptr(), pairs.len(), answer)
    })
    .map(drop)
}

/// Writes a list of pairs as the words at the front of `out`. No pairs are no words.
///
/// Refuses by 1; 2 if the book has not 65 entries; 3; 4; for the first faulty pair by 8, 11, 10; 5 if `out` has not four bytes for each word.
/// [`crate::numbers::most_bits`] says which room is always enough. What follows the words stays, and on a refusal all of `out`.
///
/// ```
/// use bridgenook::{Bits, Words, books, streams};
/// let mut book = [0; books::PAIR_SYMBOLS];
/// books::practice_pair_book(&mut book).unwrap();
/// let mut out = [9; 9];
/// let written = streams::write_pairs(&book, 4, &[5, 70, 71], &mut out).unwrap();
/// assert_eq!((written.bits, written.words), (Bits(36), Words(2)));
/// assert_eq!(out, [16, 2, 98, 3, 0, 0, 0, 0, 9]);
/// ```
pub fn write_pairs(
    book: &[u16],
    lg_k: u8,
    pairs: &[u32],
    out: &mut [u8],
) -> Result<Written, Refused> {
    ask(of_writing_pairs(book), |answer| unsafe {
        raw::bridgenook_write_pairs(
            book.as_ptr(),
            book.len(),
            lg_k,
            pairs.as_ptr(),
            pairs.len(),
            out.as_mut_ptr(),
            out.len(),
            answer,
        )
    })
    .map(Written::of_values)
}

/// Reads `count` pairs to the front of `out`. No pairs are read from any stream.
///
/// Refuses by 1; 2 if the book has not 65 entries, the table not 4,096, or the stream over 2^30 bytes; 3; 4; 5 if `out` is shorter than `count`; then
/// for each pair by 6, 7, 8, 9, 10. On 6 to 10 `out` keeps the pairs before the fault, as many as the place says; what follows them stays, and on any
/// other refusal all of `out`.
///
/// ```
/// use bridgenook::{books, streams};
/// let (mut book, mut table) = ([0; books::PAIR_SYMBOLS], [0; books::TABLE_ENTRIES]);
/// books::practice_pair_book(&mut book).unwrap();
/// books::practice_pair_table(&mut table).unwrap();
/// let mut pairs = [9; 4];
/// streams::read_pairs(&book, &table, 4, 3, &[16, 2, 98, 3, 0, 0, 0, 0], &mut pairs).unwrap();
/// assert_eq!(pairs, [5, 70, 71, 9]);
/// ```
pub fn read_pairs(
    book: &[u16],
    table: &[u16],
    lg_k: u8,
    count: u32,
    stream: &[u8],
    out: &mut [u32],
) -> Result<(), Refused> {
    ask(of_reading(PlaceOf::Pair, book), |answer| unsafe {
        raw::bridgenook_read_pairs(
            book.as_ptr(),
            book.len(),
            table.as_ptr(),
            table.len(),
            lg_k,
            count,
            stream.as_ptr(),
            stream.len(),
            out.as_mut_ptr(),
            out.len(),
            answer,
        )
    })
    .map(drop)
}

/// Writes a window as the words at the front of `out`.
///
/// Refuses by 1; 2 if the book has not 256 entries or the window not k bytes; 3; 5 if `out` has not four bytes for each word. What follows the words
/// stays, and on a refusal all of `out`.
///
/// ```
/// use bridgenook::{Bits, books, streams};
/// let mut book = [0; books::WINDOW_SYMBOLS];
/// books::practice_window_book(&mut book).unwrap();
/// let written = streams::write_window(&book, 4, &[0; 16], &mut [0; 4]).unwrap();
/// assert_eq!(written.bits, Bits(16 + 11)); // a one for each byte 0, and the pad
/// ```
pub fn write_window(
    book: &[u16],
    lg_k: u8,
    window: &[u8],
    out: &mut [u8],
) -> Result<Written, Refused> {
    ask(of_book(book), |answer| unsafe {
        raw::bridgenook_write_window(
            book.as_ptr(),
            book.len(),
            lg_k,
            window.as_ptr(),
            window.len(),
            out.as_mut_ptr(),
            out.len(),
            answer,
        )
    })
    .map(Written::of_values)
}

/// Reads a window of k bytes.
///
/// Refuses by 1; 2 if the book has not 256 entries, the table not 4,096, the stream over 2^30 bytes or the window not k; 3; then for the first byte at
/// fault by 6. On 6 the window keeps the bytes before the fault, as many as the place says, and the rest stays; on any other refusal all of it.
pub fn read_window(
    book: &[u16],
    table: &[u16],
    lg_k: u8,
    stream: &[u8],
    window: &mut [u8],
) -> Result<(), Refused> {
    ask(of_reading(PlaceOf::Byte, book), |answer| unsafe {
        raw::bridgenook_read_window(
            book.as_ptr(),
            book.len(),
            table.as_ptr(),
            table.len(),
            lg_k,
            stream.as_ptr(),
            stream.len(),
            window.as_mut_ptr(),
            window.len(),
            answer,
        )
    })
    .map(drop)
}

//! Document 01's practice books, and the constant decoding table of the one for pairs.

use super::books::NUMBERS;
use super::books::PAIR_SYMBOLS;
use super::books::WINDOW_SYMBOLS;
use super::books::decoding_table;
use super::books::entry;
use crate::answer::Answer;
use crate::answer::Lent;

/// Symbols 0 to 3 are that many zeros and a one. The others begin with four zeros and five bits v.
pub fn pair_book() -> Vec<u16> {
    let mut book = vec![0; PAIR_SYMBOLS];
    for zeros in 0..4 {
        book[usize::from(zeros)] = entry(zeros + 1, 1 << zeros);
    }
    for v in 0..3 {
        book[usize::from(4 + v)] = entry(9, v << 4);
    }
    for v in 3..32 {
        for c in 0..2 {
            book[usize::from(7 + 2 * (v - 3) + c)] = entry(10, v << 4 | c << 9);
        }
    }
    book
}

/// Byte 0 is a one. The others are a zero and seven bits v.
pub fn window_book() -> Vec<u16> {
    let mut book = vec![0; WINDOW_SYMBOLS];
    book[0] = entry(1, 1);
    book[1] = entry(8, 0);
    for v in 1..128 {
        for c in 0..2 {
            book[usize::from(2 * v + c)] = entry(9, v << 1 | c << 8);
        }
    }
    book
}

/// What a call that writes a constant into lent memory does: 2 if the length is not the constant's.
fn written(constant: Vec<u16>, memory: &[u16]) -> Lent<Vec<u16>> {
    if memory.len() == constant.len() {
        Lent::expected(Answer::accepted(&[]), constant)
    } else {
        Lent::expected(Answer::refused(2), memory.to_vec())
    }
}

pub fn practice_pair_book(memory: &[u16]) -> Lent<Vec<u16>> {
    written(pair_book(), memory)
}

pub fn practice_window_book(memory: &[u16]) -> Lent<Vec<u16>> {
    written(window_book(), memory)
}

pub fn practice_pair_table(memory: &[u16]) -> Lent<Vec<u16>> {
    let table = decoding_table(&pair_book());
    debug_assert_eq!(table.len(), NUMBERS);
    written(table, memory)
}

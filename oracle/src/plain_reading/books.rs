//! The book check, the decoding table of a book, and the pick from a book set.

use crate::answer::Answer;
use crate::answer::Lent;

/// The numbers that twelve bits of a stream can be.
pub const NUMBERS: usize = 4096;
/// The symbols of a pair book: the column steps 0 to 64.
pub const PAIR_SYMBOLS: usize = 65;
/// The symbols of a window book: the bytes.
pub const WINDOW_SYMBOLS: usize = 256;
/// The window books of a set, one for each phase.
pub const PHASES: usize = 22;

/// A book and the decoding table that is lent with it.
#[derive(Clone, Copy)]
pub struct Coded<'a> {
    pub book: &'a [u16],
    pub table: &'a [u16],
}

pub fn entry(length: u16, codeword: u16) -> u16 {
    length * 4096 + codeword
}

pub fn length(entry: u16) -> u16 {
    entry / 4096
}

pub fn codeword(entry: u16) -> u16 {
    entry % 4096
}

fn is_shaped(entry: u16) -> bool {
    (1..=12).contains(&length(entry)) && codeword(entry) < 1 << length(entry)
}

/// The numbers whose low bits are the codeword of a shaped entry.
fn numbers_of(entry: u16) -> impl Iterator<Item = usize> {
    (usize::from(codeword(entry))..NUMBERS).step_by(1 << length(entry))
}

fn each_number_has_one_symbol(book: &[u16]) -> bool {
    let mut symbols = vec![0; NUMBERS];
    for &entry in book {
        for number in numbers_of(entry) {
            symbols[number] += 1;
        }
    }
    symbols.iter().all(|&count| count == 1)
}

/// Length · 256 + symbol at each number, for a book that passes.
pub fn decoding_table(book: &[u16]) -> Vec<u16> {
    let mut table = vec![0; NUMBERS];
    for (symbol, &entry) in book.iter().enumerate() {
        for number in numbers_of(entry) {
            table[number] = length(entry) * 256 + symbol as u16;
        }
    }
    table
}

fn has_book_length(book: &[u16]) -> bool {
    [PAIR_SYMBOLS, WINDOW_SYMBOLS].contains(&book.len())
}

pub fn check_book(book: &[u16]) -> Answer {
    if !has_book_length(book) {
        return Answer::refused(2);
    }
    match book.iter().position(|&entry| !is_shaped(entry)) {
        Some(symbol) => Answer::refused_at(3, symbol as u64),
        None if each_number_has_one_symbol(book) => Answer::accepted(&[]),
        None => Answer::refused(3),
    }
}

/// What a call that takes a book and a table says before it looks at the table's entries.
fn check_before_table(book: &[u16], table: &[u16]) -> Answer {
    if has_book_length(book) && table.len() != NUMBERS {
        return Answer::refused(2);
    }
    check_book(book)
}

pub fn check_table(book: &[u16], table: &[u16]) -> Answer {
    let answer = check_before_table(book, table);
    if answer.number == 0 && table != decoding_table(book) {
        return Answer::refused(3);
    }
    answer
}

pub fn fill_table(book: &[u16], table: &[u16]) -> Lent<Vec<u16>> {
    let answer = check_before_table(book, table);
    let memory = match answer.number {
        0 => decoding_table(book),
        _ => table.to_vec(),
    };
    Lent::expected(answer, memory)
}

/// Where the part of a phase begins in the set, and how long it is.
pub fn pick(set: &[u16], phase: u8) -> Answer {
    if set.len() != PHASES * WINDOW_SYMBOLS {
        Answer::refused(2)
    } else if usize::from(phase) >= PHASES {
        Answer::refused(3)
    } else {
        Answer::accepted(&[256 * u64::from(phase), 256])
    }
}

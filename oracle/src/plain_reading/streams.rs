//! The streams of pairs and windows, written and read.

use super::bits::Bits;
use super::bits::Cursor;
use super::bits::Fault;
use super::books::Coded;
use super::books::NUMBERS;
use super::books::PAIR_SYMBOLS;
use super::books::WINDOW_SYMBOLS;
use super::books::check_book;
use super::books::check_table;
use super::books::decoding_table;
use super::numbers::base_bits_of;
use super::numbers::lawful_rows;
use super::pair_lists::RESERVED;
use super::pair_lists::column;
use super::pair_lists::judged;
use super::pair_lists::row;
use crate::answer::Answer;
use crate::answer::Lent;

/// The most pairs that a call takes.
pub const MOST_PAIRS: u64 = 1 << 28;
/// The most bytes that a reader is lent.
pub const MOST_BYTES: usize = 1 << 30;

pub(super) fn refuse_if(wrong: bool, number: u32) -> Result<(), Answer> {
    match wrong {
        true => Err(Answer::refused(number)),
        false => Ok(()),
    }
}

fn refuse_as(answer: Answer) -> Result<(), Answer> {
    match answer.number {
        0 => Ok(()),
        _ => Err(answer),
    }
}

/// Pairs with their pad, whose rows and columns do not fall: no other fault is looked for.
pub fn bits_of_pairs(book: &[u16], k: u64, pairs: &[u32]) -> Bits {
    let b = base_bits_of(k, pairs.len() as u64);
    let (mut last_row, mut predicted) = (0, 0);
    let mut bits = Bits::default();
    for &pair in pairs {
        if row(pair) != last_row {
            predicted = 0;
        }
        bits.put_steps(book, b, column(pair) - predicted, row(pair) - last_row);
        last_row = row(pair);
        predicted = column(pair) + 1;
    }
    if !pairs.is_empty() {
        bits.put_zeros(10u64.saturating_sub(b));
    }
    bits
}

pub fn bits_of_window(book: &[u16], window: &[u8]) -> Bits {
    let mut bits = Bits::default();
    for &byte in window {
        bits.put_code(book[usize::from(byte)]);
    }
    bits.put_zeros(11);
    bits
}

fn pairs_to_write(book: &[u16], lg: u8, pairs: &[u32]) -> Result<Bits, Answer> {
    let k = lawful_rows(lg)?;
    refuse_if(book.len() != PAIR_SYMBOLS, 2)?;
    refuse_as(check_book(book))?;
    refuse_if(pairs.len() as u64 > MOST_PAIRS, 4)?;
    judged(k, pairs)?;
    Ok(bits_of_pairs(book, k, pairs))
}

fn window_to_write(book: &[u16], lg: u8, window: &[u8]) -> Result<Bits, Answer> {
    let k = lawful_rows(lg)?;
    let lengths_are_right = book.len() == WINDOW_SYMBOLS && window.len() as u64 == k;
    refuse_if(!lengths_are_right, 2)?;
    refuse_as(check_book(book))?;
    Ok(bits_of_window(book, window))
}

/// The words stand at the front of the output, and what is past them stays.
fn written(bits: Result<Bits, Answer>, out: &[u8]) -> Lent<Vec<u8>> {
    let mut memory = out.to_vec();
    let answer = bits.and_then(|bits| {
        let words = bits.words();
        refuse_if(out.len() < words.len(), 5)?;
        memory[..words.len()].copy_from_slice(&words);
        Ok(Answer::accepted(&[bits.count(), words.len() as u64 / 4]))
    });
    Lent::expected(answer.unwrap_or_else(|refused| refused), memory)
}

pub fn write_pairs(book: &[u16], lg: u8, pairs: &[u32], out: &[u8]) -> Lent<Vec<u8>> {
    written(pairs_to_write(book, lg, pairs), out)
}

pub fn write_window(book: &[u16], lg: u8, window: &[u8], out: &[u8]) -> Lent<Vec<u8>> {
    written(window_to_write(book, lg, window), out)
}

/// Pairs one after the other: 6, 7, 8, 9, 10.
struct PairReader<'a> {
    cursor: Cursor<'a>,
    table: Vec<u16>,
    k: u64,
    b: u64,
    row: u64,
    predicted: u64,
}

impl PairReader<'_> {
    fn next(&mut self) -> Result<u32, Fault> {
        let column_step = self.cursor.code(&self.table)?;
        let zeros = self.cursor.zeros()?;
        let row_step = (zeros << self.b) + self.cursor.low_bits(self.b)?;
        let after = self.cursor.at;
        let fault = |number| Err(Fault { number, bit: after });
        let row = self.row + row_step;
        let predicted = if row_step == 0 { self.predicted } else { 0 };
        let column = predicted + column_step;
        if row_step >= 1 << 32 {
            return fault(7);
        } else if row >= self.k {
            return fault(8);
        } else if column >= 64 {
            return fault(9);
        } else if 64 * row + column == RESERVED.into() {
            return fault(10);
        }
        self.row = row;
        self.predicted = column + 1;
        Ok((64 * row + column) as u32)
    }
}

/// The items before the fault stand at the front of the output, and what is past them stays.
fn read<T: Copy>(
    out: &[T],
    count: usize,
    mut next: impl FnMut() -> Result<T, Fault>,
) -> Lent<Vec<T>> {
    let mut memory = out.to_vec();
    for (place, item) in memory[..count].iter_mut().enumerate() {
        match next() {
            Ok(value) => *item = value,
            Err(Fault { number, bit }) => {
                let answer = Answer::stopped(number, place as u64, bit);
                return Lent::expected(answer, memory);
            }
        }
    }
    Lent::expected(Answer::accepted(&[]), memory)
}

fn unread<T: Clone>(out: &[T], refused: Answer) -> Lent<Vec<T>> {
    Lent::expected(refused, out.to_vec())
}

/// What both readers are lent: a book of so many symbols, its decoding table, and a stream.
fn judged_lengths(coded: Coded, symbols: usize, stream: &[u8]) -> Result<(), Answer> {
    let lengths_are_right = coded.book.len() == symbols && coded.table.len() == NUMBERS;
    refuse_if(!lengths_are_right || stream.len() > MOST_BYTES, 2)
}

fn judged_to_read(
    coded: Coded,
    lg: u8,
    count: u32,
    stream: &[u8],
    room: usize,
) -> Result<u64, Answer> {
    let k = lawful_rows(lg)?;
    judged_lengths(coded, PAIR_SYMBOLS, stream)?;
    refuse_as(check_table(coded.book, coded.table))?;
    refuse_if(u64::from(count) > MOST_PAIRS, 4)?;
    refuse_if(room < count as usize, 5)?;
    Ok(k)
}

pub fn read_pairs(coded: Coded, lg: u8, count: u32, stream: &[u8], out: &[u32]) -> Lent<Vec<u32>> {
    match judged_to_read(coded, lg, count, stream, out.len()) {
        Err(refused) => unread(out, refused),
        Ok(k) => {
            let mut reader = PairReader {
                cursor: Cursor::new(stream),
                table: decoding_table(coded.book),
                k,
                b: base_bits_of(k, count.into()),
                row: 0,
                predicted: 0,
            };
            read(out, count as usize, || reader.next())
        }
    }
}

fn judged_to_read_window(coded: Coded, lg: u8, stream: &[u8], rows: usize) -> Result<(), Answer> {
    let k = lawful_rows(lg)?;
    judged_lengths(coded, WINDOW_SYMBOLS, stream)?;
    refuse_if(rows as u64 != k, 2)?;
    refuse_as(check_table(coded.book, coded.table))
}

pub fn read_window(coded: Coded, lg: u8, stream: &[u8], window: &[u8]) -> Lent<Vec<u8>> {
    match judged_to_read_window(coded, lg, stream, window.len()) {
        Err(refused) => unread(window, refused),
        Ok(()) => {
            let (table, mut cursor) = (decoding_table(coded.book), Cursor::new(stream));
            let next = || cursor.code(&table).map(|symbol| symbol as u8);
            read(window, window.len(), next)
        }
    }
}

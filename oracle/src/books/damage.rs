//! Copies of a book with one fault each, and a few with more.

use crate::plain_reading::books::codeword;
use crate::plain_reading::books::entry;
use crate::plain_reading::books::length;

/// A copy of a book, and what was done to it.
pub struct Damaged {
    pub how: String,
    pub book: Vec<u16>,
}

fn with_entry(book: &[u16], symbol: usize, how: &str, entry: u16) -> Damaged {
    let mut book = book.to_vec();
    book[symbol] = entry;
    Damaged {
        how: format!("symbol {symbol} {how}"),
        book,
    }
}

/// Every kind of change to the entry of one symbol. An exchange with another symbol's entry still
/// passes; the rest fails, by its shape or by what it leaves or covers twice.
pub fn of_symbol(book: &[u16], symbol: usize, other: usize) -> Vec<Damaged> {
    let (long, code) = (length(book[symbol]), codeword(book[symbol]));
    let mut changes = vec![
        ("of length 0", entry(0, code)),
        ("of length 13", entry(13, code)),
        ("of length 14", entry(14, code)),
        ("of length 15", entry(15, code)),
        ("all zeros", 0),
        ("all ones", u16::MAX),
        ("with its low bit flipped", entry(long, code ^ 1)),
        (
            "with its top bit flipped",
            entry(long, code ^ 1 << (long - 1)),
        ),
        ("as another symbol", book[other]),
    ];
    if long > 1 {
        changes.push(("shortened", entry(long - 1, code % (1 << (long - 1)))));
    }
    if long < 12 {
        changes.push(("lengthened by a zero", entry(long + 1, code)));
        changes.push(("lengthened by a one", entry(long + 1, code | 1 << long)));
        changes.push((
            "with a codeword too large by a bit",
            entry(long, code | 1 << long),
        ));
        changes.push(("with codeword 4095", entry(long, 4095)));
    }
    let damage = |(how, entry)| with_entry(book, symbol, how, entry);
    let mut damaged: Vec<Damaged> = changes.into_iter().map(damage).collect();
    damaged.push(exchanged(book, symbol, other));
    damaged
}

fn exchanged(book: &[u16], symbol: usize, other: usize) -> Damaged {
    let mut book = book.to_vec();
    book.swap(symbol, other);
    Damaged {
        how: format!("symbols {symbol} and {other} exchanged"),
        book,
    }
}

/// Faults that are not one symbol's: several at once, where the first wrong shape must win, and whole
/// books of one entry.
pub fn of_whole(book: &[u16]) -> Vec<Damaged> {
    let last = book.len() - 1;
    let twice = with_entry(book, last, "all zeros", 0).book;
    let mut damaged = vec![
        with_entry(&twice, last / 2, "and the last all zeros", 0),
        with_entry(&twice, 0, "as symbol 1, and the last all zeros", book[1]),
        with_entry(&twice, 0, "and the last all zeros", 0),
    ];
    for every in [
        0,
        1,
        entry(1, 0),
        entry(1, 1),
        entry(12, 0),
        entry(12, 4095),
        u16::MAX,
    ] {
        damaged.push(Damaged {
            how: format!("every entry {every}"),
            book: vec![every; book.len()],
        });
    }
    damaged
}

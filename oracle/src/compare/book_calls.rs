//! The book check, the check and the fill of a decoding table, and the pick from a book set, on books
//! that pass, damaged copies of them, wrong lengths, and changed tables.

use std::ops::Range;

use super::LENGTHS;
use crate::answer::lend;
use crate::books::BookSet;
use crate::books::damage;
use crate::books::damage::Damaged;
use crate::cases::AgainstReading;
use crate::ours;
use crate::plain_reading::books as reading;
use crate::plain_reading::books::NUMBERS;
use crate::random::Random;

/// The three calls that are lent a book.
struct BookCalls {
    check_book: AgainstReading,
    check_table: AgainstReading,
    fill_table: AgainstReading,
}

pub fn compare(sets: &[BookSet]) {
    let mut calls = BookCalls {
        check_book: AgainstReading::new("check_book"),
        check_table: AgainstReading::new("check_table"),
        fill_table: AgainstReading::new("fill_table"),
    };
    let mut random = Random::new(4);
    for set in sets {
        for (turn, (name, book)) in set.all().enumerate() {
            // The pair book and the first window book at every symbol, the others at a few.
            if turn < 2 {
                calls.judge_book_and_damage(&name, book, 0..book.len(), &mut random);
                calls.judge_changed_tables(&name, book);
            } else {
                let first = random.below(book.len() as u64 - 8) as usize;
                calls.judge_book_and_damage(&name, book, first..first + 8, &mut random);
            }
        }
        calls.judge_wrong_lengths(set);
        calls.judge_foreign_tables(set);
    }
    calls.check_book.finish();
    calls.check_table.finish();
    calls.fill_table.finish();
    compare_pick(sets);
}

impl BookCalls {
    /// The book itself, and copies that are damaged as a whole or at one of the symbols.
    fn judge_book_and_damage(
        &mut self,
        name: &str,
        book: &[u16],
        symbols: Range<usize>,
        random: &mut Random,
    ) {
        let table = reading::decoding_table(book);
        self.judge(name, book, &table);
        let mut damaged = damage::of_whole(book);
        for symbol in symbols {
            let step = 1 + random.below(book.len() as u64 - 1) as usize;
            let other = (symbol + step) % book.len();
            damaged.extend(damage::of_symbol(book, symbol, other));
        }
        for Damaged { how, book } in damaged {
            self.judge(&format!("{name}, {how}"), &book, &table);
        }
    }

    fn judge(&mut self, name: &str, book: &[u16], table: &[u16]) {
        self.check_book
            .judge(name, ours::check_book(book), reading::check_book(book));
        self.judge_table(name, book, table);
        let blank = vec![0xeeee; table.len()];
        let filled = lend(&blank, 0xcccc, |table| ours::fill_table(book, table));
        self.fill_table
            .judge(name, filled, reading::fill_table(book, &blank));
    }

    fn judge_table(&mut self, name: &str, book: &[u16], table: &[u16]) {
        let (ours, reading) = (
            ours::check_table(book, table),
            reading::check_table(book, table),
        );
        self.check_table.judge(name, ours, reading);
    }

    /// Every pair of lengths, of entries that would pass at the right ones.
    fn judge_wrong_lengths(&mut self, set: &BookSet) {
        let window = set.windows().next().unwrap();
        for (name, book) in [("pairs", set.pairs()), ("window", window)] {
            let table = reading::decoding_table(book);
            for symbols in LENGTHS {
                for entries in LENGTHS {
                    let name = format!("{} {name}, {symbols} symbols, {entries} entries", set.name);
                    self.judge(&name, &repeated(book, symbols), &repeated(&table, entries));
                }
            }
        }
    }

    /// Each book with the table of the next.
    fn judge_foreign_tables(&mut self, set: &BookSet) {
        for ((name, book), (other, foreign)) in set.all().zip(set.all().skip(1)) {
            let name = format!("{name} with the table of {other}");
            self.judge_table(&name, book, &reading::decoding_table(foreign));
        }
    }

    /// The book's own table with one number changed, for each number.
    fn judge_changed_tables(&mut self, name: &str, book: &[u16]) {
        let right = reading::decoding_table(book);
        for number in 0..NUMBERS {
            let before = right[number];
            let changes = [
                before ^ 1,
                before ^ 0x100,
                0,
                u16::MAX,
                right[(number + 1) % NUMBERS],
            ];
            let mut table = right.clone();
            table[number] = changes[number % changes.len()];
            let name = format!("{name}, number {number} was {before}, is {}", table[number]);
            self.judge_table(&name, book, &table);
        }
    }
}

/// So many entries, from the beginning again where there are not enough.
fn repeated(entries: &[u16], length: usize) -> Vec<u16> {
    entries.iter().copied().cycle().take(length).collect()
}

fn compare_pick(sets: &[BookSet]) {
    let mut cases = AgainstReading::new("pick");
    for set in sets {
        for length in LENGTHS {
            let lent = repeated(set.window_set(), length);
            for phase in 0..=u8::MAX {
                let name = format_args!("{}, {length} entries, phase {phase}", set.name);
                cases.judge(name, ours::pick(&lent, phase), reading::pick(&lent, phase));
            }
        }
    }
    cases.finish();
}

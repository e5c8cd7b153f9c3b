//! The practice books and their decoding tables, as every test wants them.
#![allow(dead_code)]

use bridgenook::books;

pub fn pair_book() -> [u16; books::PAIR_SYMBOLS] {
    let mut book = [0; books::PAIR_SYMBOLS];
    books::practice_pair_book(&mut book).unwrap();
    book
}

pub fn pair_table() -> [u16; books::TABLE_ENTRIES] {
    let mut table = [0; books::TABLE_ENTRIES];
    books::practice_pair_table(&mut table).unwrap();
    table
}

pub fn window_book() -> [u16; books::WINDOW_SYMBOLS] {
    let mut book = [0; books::WINDOW_SYMBOLS];
    books::practice_window_book(&mut book).unwrap();
    book
}

pub fn window_table() -> [u16; books::TABLE_ENTRIES] {
    let mut table = [0; books::TABLE_ENTRIES];
    books::fill_table(&window_book(), &mut table).unwrap();
    table
}

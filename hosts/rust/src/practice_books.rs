//! The books that the files are written in, until the galleries' own arrive.

use bridgenook::Refused;
use bridgenook::books;

/// The practice books, and what decodes them.
pub struct PracticeBooks {
    pub pair_book: [u16; books::PAIR_SYMBOLS],
    pub pair_table: [u16; books::TABLE_ENTRIES],
    pub window_book: [u16; books::WINDOW_SYMBOLS],
    pub window_table: [u16; books::TABLE_ENTRIES],
}

impl PracticeBooks {
    pub fn new() -> Result<Self, Refused> {
        let mut made = Self {
            pair_book: [0; books::PAIR_SYMBOLS],
            pair_table: [0; books::TABLE_ENTRIES],
            window_book: [0; books::WINDOW_SYMBOLS],
            window_table: [0; books::TABLE_ENTRIES],
        };
        books::practice_pair_book(&mut made.pair_book)?;
        books::practice_pair_table(&mut made.pair_table)?;
        books::practice_window_book(&mut made.window_book)?;
        books::fill_table(&made.window_book, &mut made.window_table)?;
        Ok(made)
    }
}

//! Books that pass the check, kept in book files: document 01's practice books, and random ones.
//!
//! A book file is 5,697 numbers of 16 bits, low byte first: the pair book, then the window books of
//! phases 0 to 21.

pub mod damage;
pub mod generator;

use std::fs;
use std::io::Result;
use std::path::Path;

use crate::plain_reading::books::PAIR_SYMBOLS;
use crate::plain_reading::books::PHASES;
use crate::plain_reading::books::WINDOW_SYMBOLS;
use crate::plain_reading::practice;

const ENTRIES: usize = PAIR_SYMBOLS + PHASES * WINDOW_SYMBOLS;

/// What one book file holds.
pub struct BookSet {
    pub name: String,
    entries: Vec<u16>,
}

impl BookSet {
    pub fn practice() -> Self {
        let mut entries = practice::pair_book();
        for _ in 0..PHASES {
            entries.extend(practice::window_book());
        }
        Self {
            name: "practice".to_string(),
            entries,
        }
    }

    pub fn pairs(&self) -> &[u16] {
        &self.entries[..PAIR_SYMBOLS]
    }

    /// The window books of all phases, end to end.
    pub fn window_set(&self) -> &[u16] {
        &self.entries[PAIR_SYMBOLS..]
    }

    pub fn windows(&self) -> impl Iterator<Item = &[u16]> {
        self.window_set().chunks(WINDOW_SYMBOLS)
    }

    /// Every book of the set, with a name.
    pub fn all(&self) -> impl Iterator<Item = (String, &[u16])> {
        let windows = self.windows().enumerate();
        let named = windows.map(|(phase, book)| (format!("{} window {phase}", self.name), book));
        std::iter::once((format!("{} pairs", self.name), self.pairs())).chain(named)
    }

    fn write(&self, folder: &Path) -> Result<()> {
        let bytes: Vec<u8> = self
            .entries
            .iter()
            .flat_map(|entry| entry.to_le_bytes())
            .collect();
        fs::write(folder.join(format!("{}.book", self.name)), bytes)
    }

    fn read(folder: &Path, name: String) -> Result<Self> {
        let bytes = fs::read(folder.join(format!("{name}.book")))?;
        let numbers = bytes.chunks_exact(2);
        let entries: Vec<u16> = numbers
            .map(|two| u16::from_le_bytes([two[0], two[1]]))
            .collect();
        assert_eq!(entries.len(), ENTRIES, "{name}.book is not a book file");
        Ok(Self { name, entries })
    }
}

/// Writes the practice books and so many random sets to the folder, and reads all of them back.
pub fn write_and_read(folder: &Path, random_sets: u64) -> Result<Vec<BookSet>> {
    fs::create_dir_all(folder)?;
    let random = (1..=random_sets).map(generator::random_set);
    std::iter::once(BookSet::practice())
        .chain(random)
        .map(|set| {
            set.write(folder)?;
            BookSet::read(folder, set.name)
        })
        .collect()
}

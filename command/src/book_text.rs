//! Books as text: a decimal for each symbol, one to a line. Where none is named, the practice books serve.

use std::path::Path;

use bridgenook::PlaceOf;
use bridgenook::Refused;
use bridgenook::books;

use crate::failure::Failure;
use crate::failure::Told;
use crate::input;
use crate::progress::Progress;
use crate::text::Name;
use crate::text::Text;

/// What a stream holds, which decides its book.
#[derive(Clone, Copy, PartialEq, Eq)]
pub enum Kind {
    Pairs,
    Window,
}

/// A book that passes, with its decoding table.
pub struct Book {
    pub entries: Vec<u16>,
    pub table: Vec<u16>,
}

impl Book {
    pub fn load(kind: Kind, path: Option<&Path>, progress: &Progress) -> Result<Self, Failure> {
        let Some(path) = path else {
            return Self::practice(kind)
                .map_err(|refused| Told::from(refused).about("the practice book"));
        };
        let (name, entries) = read(path, progress)?;
        let wanted = kind.symbols();
        if entries.len() != wanted {
            let words = format!("the book has {} entries, and not {wanted}", entries.len());
            return Err(Told::new(2, words).about(name));
        }
        Self::with_table(entries).map_err(|refused| failure(name, refused))
    }

    fn practice(kind: Kind) -> Result<Self, Refused> {
        let mut entries = vec![0; kind.symbols()];
        match kind {
            Kind::Pairs => books::practice_pair_book(&mut entries)?,
            Kind::Window => books::practice_window_book(&mut entries)?,
        }
        Self::with_table(entries)
    }

    fn with_table(entries: Vec<u16>) -> Result<Self, Refused> {
        let mut table = vec![0; books::TABLE_ENTRIES];
        books::fill_table(&entries, &mut table)?;
        Ok(Self { entries, table })
    }
}

impl Kind {
    pub fn named(name: &Path) -> Option<Self> {
        match name.to_str()? {
            "pairs" => Some(Kind::Pairs),
            "window" => Some(Kind::Window),
            _ => None,
        }
    }

    fn symbols(self) -> usize {
        match self {
            Kind::Pairs => books::PAIR_SYMBOLS,
            Kind::Window => books::WINDOW_SYMBOLS,
        }
    }
}

/// The file's name for messages, and its entries: one more than any book has are enough to refuse it.
pub fn read(path: &Path, progress: &Progress) -> Result<(String, Vec<u16>), Failure> {
    let mut text = Text::new(input::open(path)?, progress);
    let mut entries = Vec::new();
    while entries.len() <= books::WINDOW_SYMBOLS && !text.is_at_end()? {
        entries.push(text.number(Name::Nothing, u16::MAX.into())? as u16);
    }
    Ok((text.name, entries))
}

/// A symbol's entry stands in the line after the symbol's number.
pub fn failure(name: String, refused: Refused) -> Failure {
    match refused.place_of() {
        Some(PlaceOf::Symbol) => Told::from(refused).about_line(name, refused.place + 1),
        _ => Told::from(refused).about(name),
    }
}

//! Stand-in for the crate's own `compression_data.rs`, its code tables, which are not to be had.
//!
//! The names and the ways to index them are those that `compression.rs` and `sketch.rs` ask for.
//! The contents are lent at run time, so that one process can try many books: see `install`. With the
//! feature `constants` they are constants, and what is lent is not asked for.
#![cfg_attr(feature = "constants", allow(dead_code))]

#[cfg(feature = "constants")]
mod constants;
mod inside;

use std::cell::Cell;
use std::ops::Index;

#[cfg(feature = "constants")]
pub use self::constants::*;

/// A book and the decoding table that belongs to it.
type Coded = (Vec<u16>, Vec<u16>);

/// Arrays, as the crate's own must be: so that a place which is surely inside costs no check.
struct Tables {
    pair_book: [u16; 65],
    pair_table: [u16; 4096],
    window_books: [[u16; 256]; 22],
    window_tables: [[u16; 4096]; 22],
}

thread_local! {
    static INSTALLED: Cell<Option<&'static Tables>> = const { Cell::new(None) };
}

/// From now on the Rust of this thread works with these tables.
///
/// They are never freed: what stands for a constant lives as long as the program.
fn install(pairs: Coded, windows: Vec<Coded>) {
    let (window_books, window_tables): (Vec<_>, Vec<_>) = windows.into_iter().unzip();
    INSTALLED.set(Some(Box::leak(Box::new(Tables {
        pair_book: array(pairs.0),
        pair_table: array(pairs.1),
        window_books: array(window_books.into_iter().map(array).collect()),
        window_tables: array(window_tables.into_iter().map(array).collect()),
    }))));
}

fn array<T, const LENGTH: usize>(list: Vec<T>) -> [T; LENGTH] {
    let Ok(array) = list.try_into() else {
        panic!("a book or a table is not of its length");
    };
    array
}

/// One of the crate's constants: it indexes the part of the installed tables that it names.
pub struct Lent<T: 'static>(fn(&'static Tables) -> &'static T);

impl<T: Index<usize>> Index<usize> for Lent<T> {
    type Output = T::Output;

    fn index(&self, place: usize) -> &T::Output {
        let tables = INSTALLED.get().expect("no books are installed");
        &(self.0)(tables)[place]
    }
}

#[cfg(not(feature = "constants"))]
pub static LENGTH_LIMITED_UNARY_ENCODING_TABLE65: Lent<[u16; 65]> =
    Lent(|tables| &tables.pair_book);
#[cfg(not(feature = "constants"))]
pub static LENGTH_LIMITED_UNARY_DECODING_TABLE65: Lent<[u16; 4096]> =
    Lent(|tables| &tables.pair_table);
#[cfg(not(feature = "constants"))]
pub static ENCODING_TABLES_FOR_HIGH_ENTROPY_BYTE: Lent<[[u16; 256]; 22]> =
    Lent(|tables| &tables.window_books);
#[cfg(not(feature = "constants"))]
pub static DECODING_TABLES_FOR_HIGH_ENTROPY_BYTE: Lent<[[u16; 4096]; 22]> =
    Lent(|tables| &tables.window_tables);

/// The columns stay as they are. Only the crate's own file format permutes them, and that is not
/// compared; `sketch.rs` wants the two names all the same.
const COLUMNS_AS_THEY_ARE: [u8; 56] = {
    let mut columns = [0; 56];
    let mut column = 0;
    while column < columns.len() {
        columns[column] = column as u8;
        column += 1;
    }
    columns
};
pub static COLUMN_PERMUTATIONS_FOR_ENCODING: [[u8; 56]; 16] = [COLUMNS_AS_THEY_ARE; 16];
pub static COLUMN_PERMUTATIONS_FOR_DECODING: [[u8; 56]; 16] = [COLUMNS_AS_THEY_ARE; 16];

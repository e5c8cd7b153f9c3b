//! A sample of the Rust's answers, to be replayed without the Rust: one case a line,
//! `call inputs = number place bit values`, and for lent memory ` ; ` and what it holds afterwards.

mod numbers;
mod streams;
mod tables;
mod unions;

use std::fmt::Display;
use std::fs;
use std::io::Result;
use std::path::Path;

use crate::books::BookSet;
use crate::listed::Listed;

const HEADING: &str = "\
# Answers of the Rust crate datasketches 0.5.0, unchanged, at the thresholds of each number.
# Written by `bash oracle/run --sample FILE`; one case a line: call inputs = number place bit values.
# The inputs are lg_k and coupons, for number_of_base_bits lg_k and pairs.
";

const STREAMS_HEADING: &str = "\
# Streams of the Rust's own, with the practice books: what it writes, and what it reads from that.
# The inputs are book, lg_k, pairs or window, and the output before; for a reader book, table, lg_k, for pairs
# their number, then stream and output before. The bytes and the lists are the Rust's; the bit totals are
# document 01's, since the Rust does not tell them.
";

const TABLES_HEADING: &str = "\
# Pair tables of the Rust's own: what its calls leave. A table is its lg, valid bits and items, then its region and
# its spare. The slots are the Rust's; the region beyond them and the spare are document 01's, since the Rust has none.
";

const UNIONS_HEADING: &str = "\
# Sketches of the Rust's own, counted, expanded, split, and merged into unions. A union is its configured lg_k, present
# lg_k and seed, then its matrix; a source its lg_k, seed and coupons, then its window and its pairs. Windows, lists and
# matrices are the Rust's; a window of a split without one, the rows past the present k and the first interesting column
# are document 01's.
";

const LG_KS: [u8; 7] = [4, 5, 6, 10, 13, 20, 26];

/// The first set is the one of the practice books.
pub fn write(path: &Path, practice: &BookSet) -> Result<()> {
    let mut text = HEADING.to_string();
    numbers::write(&mut text);
    text += STREAMS_HEADING;
    streams::write(&mut text, practice);
    text += TABLES_HEADING;
    tables::write(&mut text);
    text += UNIONS_HEADING;
    unions::write(&mut text);
    fs::write(path, text)
}

/// What each item of lent memory holds before, and how many more than needed an output has.
const BEFORE: u8 = 9;
const MORE: usize = 3;

/// Memory full of one number, and with other items at its front.
fn before_and_after<T: Copy + PartialEq + Display + From<u8>>(items: &[T]) -> (String, String) {
    let before = vec![T::from(BEFORE); items.len() + MORE];
    let after = [items, &before[items.len()..]].concat();
    (Listed::of(&before).whole(), Listed::of(&after).whole())
}

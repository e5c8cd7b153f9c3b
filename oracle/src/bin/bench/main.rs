//! One table of what calls take, beside the Rust, and a picture of the pace of pairs. They are for reading; neither
//! is a test.
//!
//! `bench [books] [streams] [tables] [unions] [--plot FILE]`: the parts of the table that are named, and with
//! `--plot` the picture. All parts, if nothing is said.

// The modules are those of the comparison, and a benchmark needs a part of each.
#![allow(dead_code)]

#[path = "../../answer.rs"]
mod answer;
mod book_table;
#[path = "../../books/mod.rs"]
mod books;
#[path = "../../growing.rs"]
mod growing;
#[path = "../../lent_matrices.rs"]
mod lent_matrices;
#[path = "../../lent_tables.rs"]
mod lent_tables;
#[path = "../../listed.rs"]
mod listed;
#[path = "../../compare/streams/lists.rs"]
mod lists;
#[path = "../../ours/mod.rs"]
mod ours;
mod pair_table;
#[path = "../../plain_reading/mod.rs"]
mod plain_reading;
mod plot;
#[path = "../../random.rs"]
mod random;
mod ratios;
#[path = "../../rust/mod.rs"]
mod rust;
mod stream_table;
mod timing;
mod union_table;
mod window_table;

use std::env;
use std::fs;
use std::io::Result;
use std::process::exit;

use crate::ratios::Ratios;

/// Adds the rows of a part.
type Measure = fn(&mut Ratios);

/// By the names that they are asked for.
const PARTS: [(&str, &[Measure]); 4] = [
    ("books", &[book_table::measure]),
    ("streams", &[stream_table::measure, window_table::measure]),
    ("tables", &[pair_table::measure]),
    ("unions", &[union_table::measure]),
];

/// What is asked for: the names of parts, and the file of the picture.
struct Asked {
    parts: Vec<String>,
    picture: Option<String>,
}

impl Asked {
    /// None if there is anything else.
    fn of(mut words: impl Iterator<Item = String>) -> Option<Self> {
        let (mut parts, mut picture) = (vec![], None);
        while let Some(word) = words.next() {
            match word.as_str() {
                "--plot" => picture = Some(words.next()?),
                name if PARTS.iter().any(|part| part.0 == name) => parts.push(word),
                _ => return None,
            }
        }
        Some(Self { parts, picture })
    }

    fn has(&self, part: &str) -> bool {
        let whole = self.parts.is_empty() && self.picture.is_none();
        whole || self.parts.iter().any(|name| name == part)
    }
}

fn main() -> Result<()> {
    let Some(asked) = Asked::of(env::args().skip(1)) else {
        eprintln!("usage: bench [books] [streams] [tables] [unions] [--plot FILE]");
        exit(2);
    };
    let parts: Vec<_> = PARTS.iter().filter(|part| asked.has(part.0)).collect();
    if !parts.is_empty() {
        let mut ratios = Ratios::begin();
        for measure in parts.iter().flat_map(|part| part.1) {
            measure(&mut ratios);
        }
        ratios.finish();
    }
    match asked.picture {
        Some(file) => fs::write(file, plot::picture(&stream_table::paces())),
        None => Ok(()),
    }
}

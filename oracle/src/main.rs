//! The oracle: it feeds the same inputs to the proved library and to the Rust as given, in one
//! process, and stops with status 1 at the first difference that is not an intended one.
//!
//! `oracle --books FOLDER --answers FILE [--sample FILE]`

mod answer;
mod books;
mod cases;
mod compare;
mod growing;
mod lent_matrices;
mod lent_tables;
mod listed;
mod ours;
mod plain_reading;
mod random;
mod rust;
mod sample;

use std::env;
use std::io::Result;
use std::path::PathBuf;

use crate::cases::RustAnswers;
use crate::compare::streams;
use crate::compare::tables;
use crate::compare::unions;

/// What the calls are tried on besides the chosen inputs.
struct Effort {
    random_numbers: u64,
    random_book_sets: u64,
    streams: streams::Effort,
    tables: tables::Effort,
    unions: unions::Effort,
}

/// Debug is there for the Rust's own checks, which the chosen inputs meet; it is slow, and tries less.
const EFFORT: Effort = if cfg!(debug_assertions) {
    Effort {
        random_numbers: 100_000,
        random_book_sets: 4,
        streams: streams::Effort {
            longest_list: 300,
            step: 47,
            zeros: 1 << 16,
            huge: false,
        },
        tables: tables::Effort {
            every_valid: 3,
            calls: 1_000,
            most: 8,
            longest_list: 10_000,
            damaged: 2,
            huge: false,
        },
        unions: unions::Effort {
            most: 9,
            most_grown: 9,
            unions: 40,
            step: 9,
            huge: false,
        },
    }
} else {
    Effort {
        random_numbers: 3_000_000,
        random_book_sets: 60,
        streams: streams::Effort {
            longest_list: 4000,
            step: 1,
            zeros: 1 << 22,
            huge: true,
        },
        tables: tables::Effort {
            every_valid: 4,
            calls: 2_000,
            most: 12,
            longest_list: 100_000,
            damaged: 10,
            huge: true,
        },
        unions: unions::Effort {
            most: 14,
            most_grown: 14,
            unions: 300,
            step: 1,
            huge: true,
        },
    }
};

/// The path that follows an option, if it is given.
fn option(name: &str) -> Option<PathBuf> {
    env::args()
        .skip_while(|argument| argument != name)
        .nth(1)
        .map(PathBuf::from)
}

fn main() -> Result<()> {
    let folder = option("--books").expect("--books FOLDER is given");
    let answers = option("--answers").expect("--answers FILE is given");
    rust::silence_caught_panics();

    let sets = books::write_and_read(&folder, EFFORT.random_book_sets)?;
    let mut rust_answers = RustAnswers::create(&answers)?;
    compare::stand_in::check(&sets);
    compare::numbers::compare(&mut rust_answers, EFFORT.random_numbers);
    compare::bounds::compare(EFFORT.random_numbers);
    compare::book_calls::compare(&sets);
    compare::practice::compare();
    streams::compare(&sets, &mut rust_answers, &EFFORT.streams);
    tables::compare(&rust_answers, &EFFORT.tables);
    unions::compare(&rust_answers, &EFFORT.unions);
    rust_answers.finish()?;
    if let Some(path) = option("--sample") {
        sample::write(&path, &sets[0])?;
    }
    println!("0 differences");
    Ok(())
}

//! `check-book`: whether a book passes.

use std::ffi::OsString;

use bridgenook::books;

use crate::arguments::Arguments;
use crate::arguments::Options;
use crate::book_text;
use crate::failure::Failure;
use crate::failure::Told;
use crate::output;
use crate::progress::Progress;

const OPTIONS: Options = Options {
    subcommand: "check-book",
    with_value: &[],
    alone: &[],
};

pub fn run(words: Vec<OsString>) -> Result<(), Failure> {
    let arguments = Arguments::take(&OPTIONS, words)?;
    let [path] = arguments.names("the name of a book's file")?;
    let (name, book) = book_text::read(&path, &Progress::start(arguments.wants_progress()))?;
    let serves = match book.len() {
        books::PAIR_SYMBOLS => "pairs",
        books::WINDOW_SYMBOLS => "windows",
        entries => return Err(wrong_length(entries).about(name)),
    };
    books::check_book(&book).map_err(|refused| book_text::failure(name, refused))?;
    output::print(&format!(
        "passes: a book of {} symbols, for {serves}\n",
        book.len()
    ))
}

fn wrong_length(entries: usize) -> Told {
    let given = match entries > books::WINDOW_SYMBOLS {
        true => "more than 256".to_string(),
        false => entries.to_string(),
    };
    Told::new(
        2,
        format_args!("the book has {given} entries, and not 65, for pairs, or 256, for windows"),
    )
}

//! `report`: document 01's small program. Its answers are those of the proved one, text for text; what it says on standard error is its own.

use std::ffi::OsString;
use std::fmt::Write;

use bridgenook::Refused;
use bridgenook::numbers;
use bridgenook::streams;

use crate::arguments::Arguments;
use crate::arguments::Options;
use crate::book_text::Book;
use crate::book_text::Kind;
use crate::failure::Failure;
use crate::input;
use crate::output;
use crate::pair_text::Limits;
use crate::pair_text::PairText;
use crate::progress::Progress;
use crate::text::Text;

const OPTIONS: Options = Options {
    subcommand: "report",
    with_value: &[],
    alone: &[],
};

/// What the program is answered where standard input cannot be read to its end.
const UNREADABLE: u32 = 15;

pub fn run(words: Vec<OsString>) -> Result<(), Failure> {
    let arguments = Arguments::take(&OPTIONS, words)?;
    let [] = arguments.names("no names, but a text on standard input")?;
    let answer = answer(&Progress::start(arguments.wants_progress()));
    let lines = match &answer {
        Ok(lines) => lines.clone(),
        Err(Failure::Refused { told, .. }) => refused_line(told.number.unwrap_or(UNREADABLE)),
        Err(_) => refused_line(UNREADABLE),
    };
    output::print(&lines)?;
    answer.map(drop)
}

fn refused_line(number: u32) -> String {
    format!("refused={number}\n")
}

fn answer(progress: &Progress) -> Result<String, Failure> {
    let mut text = Text::new(input::standard_input(), progress);
    let list = PairText::read(&mut text, Limits::Program)?;
    let book = Book::load(Kind::Pairs, None, progress)?;
    report(&list, &book).map_err(|refused| PairText::failure(&text.name, refused))
}

/// The writer goes before the offset.
fn report(list: &PairText, book: &Book) -> Result<String, Refused> {
    let PairText { lg_k, pairs } = list;
    let (lg_k, count) = (*lg_k, pairs.len() as u32);
    let (_, most_words) = numbers::most_bits(lg_k, count)?;
    let mut stream = vec![0; most_words.bytes() as usize];
    let written = streams::write_pairs(&book.entries, lg_k, pairs, &mut stream)?;
    let offset = numbers::determine_correct_offset(lg_k, count)?;
    let flavor = numbers::determine_flavor(lg_k, count)?;
    let base_bits = numbers::number_of_base_bits(lg_k, count)?;
    let mut lines = format!(
        "lg_k={lg_k}\npairs={count}\nflavor={flavor}\noffset={offset}\nbase_bits={base_bits}\nbits={}\nwords={}\n",
        written.bits, written.words
    );
    let (words, _) = stream[..written.words.bytes() as usize].as_chunks();
    for (index, &word) in words.iter().enumerate() {
        writeln!(lines, "w{index}={}", u32::from_le_bytes(word)).expect("a string takes all");
    }
    Ok(lines)
}

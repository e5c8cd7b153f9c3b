//! `decode`: a stream of pairs or of a window becomes a text.

use std::ffi::OsString;
use std::io;
use std::io::Write;
use std::path::Path;

use bridgenook::numbers;
use bridgenook::streams;

use crate::arguments::Arguments;
use crate::arguments::Options;
use crate::book_text::Book;
use crate::book_text::Kind;
use crate::claims;
use crate::claims::Claim;
use crate::failure::Failure;
use crate::failure::Told;
use crate::input;
use crate::output::Output;
use crate::pair_text::PairText;
use crate::progress::Progress;
use crate::window_text::WindowText;

const OPTIONS: Options = Options {
    subcommand: "decode",
    with_value: &["--lg-k", "--pairs", "--book", "--output"],
    alone: &[],
};

pub fn run(words: Vec<OsString>) -> Result<(), Failure> {
    let arguments = Arguments::take(&OPTIONS, words)?;
    let (kind, path) = arguments.kind_and_name("a stream's file")?;
    match kind {
        Kind::Pairs => decode_pairs(&arguments, &path),
        Kind::Window => decode_window(&arguments, &path),
    }
}

fn decode_pairs(arguments: &Arguments, path: &Path) -> Result<(), Failure> {
    let (lg_k, asked) = (arguments.lg_k()?, arguments.needed_number("--pairs")?);
    // More than a u32 holds is refused by 4, as its largest is.
    let count = u32::try_from(asked).unwrap_or(u32::MAX);
    numbers::most_bits(lg_k, count)
        .map_err(|refused| Told::from(refused).about(format_args!("--pairs {asked}")))?;
    let progress = Progress::start(arguments.wants_progress());
    let book = Book::load(Kind::Pairs, arguments.path("--book").as_deref(), &progress)?;
    let stream = input::read_stream(path, &progress)?;
    judge_claim(Claim::Pairs(asked), &stream, path)?;
    let mut pairs = vec![0; count as usize];
    progress.begin(format_args!("reading {count} pairs from the stream"), None);
    streams::read_pairs(&book.entries, &book.table, lg_k, count, &stream, &mut pairs)
        .map_err(|refused| Told::from(refused).about(input::name_of(path)))?;
    write(arguments, progress, |out| {
        PairText { lg_k, pairs }.write(out)
    })
}

fn decode_window(arguments: &Arguments, path: &Path) -> Result<(), Failure> {
    if arguments.number("--pairs")?.is_some() {
        return Err(arguments.usage("a window takes no --pairs: it has 2^lg_k bytes".to_string()));
    }
    let lg_k = arguments.lg_k()?;
    let rows = numbers::rows(lg_k).map_err(|refused| Told::from(refused).about("--lg-k"))?;
    let progress = Progress::start(arguments.wants_progress());
    let book = Book::load(Kind::Window, arguments.path("--book").as_deref(), &progress)?;
    let stream = input::read_stream(path, &progress)?;
    judge_claim(Claim::WindowBytes(rows), &stream, path)?;
    let mut window = vec![0; rows as usize];
    progress.begin(
        format_args!("reading a window of {rows} bytes from the stream"),
        None,
    );
    streams::read_window(&book.entries, &book.table, lg_k, &stream, &mut window)
        .map_err(|refused| Told::from(refused).about(input::name_of(path)))?;
    write(arguments, progress, |out| {
        WindowText { lg_k, window }.write(out)
    })
}

fn judge_claim(claim: Claim, stream: &[u8], path: &Path) -> Result<(), Failure> {
    claims::judge_claim(claim, stream.len() as u64).map_err(|told| told.about(input::name_of(path)))
}

fn write(
    arguments: &Arguments,
    progress: Progress,
    content: impl FnOnce(&mut dyn Write) -> io::Result<()>,
) -> Result<(), Failure> {
    Output::new(arguments.path("--output")).write(progress, content)
}

//! `encode`: a text of pairs or of a window becomes a stream.

use std::ffi::OsString;

use bridgenook::Bits;
use bridgenook::numbers;
use bridgenook::streams;
use bridgenook::streams::Written;
use bridgenook::units;

use crate::arguments::Arguments;
use crate::arguments::Options;
use crate::book_text::Book;
use crate::book_text::Kind;
use crate::failure::Failure;
use crate::failure::Told;
use crate::input;
use crate::output;
use crate::output::Output;
use crate::pair_text::Limits;
use crate::pair_text::PairText;
use crate::progress::Progress;
use crate::text::Text;
use crate::window_text::WindowText;

const OPTIONS: Options = Options {
    subcommand: "encode",
    with_value: &["--book", "--output"],
    alone: &[],
};

/// The stream, and what a reader must be told besides it.
struct Encoded {
    stream: Vec<u8>,
    claims: String,
}

impl Encoded {
    fn new(mut stream: Vec<u8>, written: Written, claims: String) -> Self {
        stream.truncate(written.words.bytes() as usize);
        let claims = format!("{claims}bits={}\nwords={}\n", written.bits, written.words);
        Self { stream, claims }
    }
}

pub fn run(words: Vec<OsString>) -> Result<(), Failure> {
    let arguments = Arguments::take(&OPTIONS, words)?;
    let (kind, path) = arguments.kind_and_name("a text")?;
    let output = Output::new(arguments.path("--output"));
    if output.is_terminal() {
        return Err(
            arguments.usage("a stream is no text; --output FILE puts it into a file".into())
        );
    }
    let progress = Progress::start(arguments.wants_progress());
    let book = Book::load(kind, arguments.path("--book").as_deref(), &progress)?;
    let text = Text::new(input::open(&path)?, &progress);
    let encoded = match kind {
        Kind::Pairs => encode_pairs(text, &book, &progress)?,
        Kind::Window => encode_window(text, &book, &progress)?,
    };
    output.write(progress, |out| out.write_all(&encoded.stream))?;
    if output.is_file() {
        output::print(&encoded.claims)?;
    }
    Ok(())
}

fn encode_pairs(mut text: Text<'_>, book: &Book, progress: &Progress) -> Result<Encoded, Failure> {
    let PairText { lg_k, pairs } = PairText::read(&mut text, Limits::Library)?;
    let failure = |refused| PairText::failure(&text.name, refused);
    progress.begin(
        format_args!("writing {} pairs as a stream", pairs.len()),
        None,
    );
    let (_, most_words) = numbers::most_bits(lg_k, pairs.len() as u32).map_err(failure)?;
    let mut stream = vec![0; most_words.bytes() as usize];
    let written =
        streams::write_pairs(&book.entries, lg_k, &pairs, &mut stream).map_err(failure)?;
    let claims = format!("lg_k={lg_k}\npairs={}\n", pairs.len());
    Ok(Encoded::new(stream, written, claims))
}

/// A code has 12 bits at the most, and the pad 11.
fn encode_window(mut text: Text<'_>, book: &Book, progress: &Progress) -> Result<Encoded, Failure> {
    let WindowText { lg_k, window } = WindowText::read(&mut text)?;
    progress.begin(
        format_args!("writing a window of {} bytes as a stream", window.len()),
        None,
    );
    let most_words = units::words_for(Bits(12 * window.len() as u64 + 11));
    let mut stream = vec![0; most_words.bytes() as usize];
    let written = streams::write_window(&book.entries, lg_k, &window, &mut stream)
        .map_err(|refused| Told::from(refused).about(&text.name))?;
    Ok(Encoded::new(stream, written, format!("lg_k={lg_k}\n")))
}

//! What the command says of itself.

use std::ffi::OsString;

use crate::failure::Failure;
use crate::output;

pub const ALL: &str = "\
bridgenook-command reads, writes and merges CPC sketches, as text and as streams of bits.

  bridgenook-command report                       answers a small text of pairs on standard input
  bridgenook-command encode pairs|window TEXT     makes a stream of a text
  bridgenook-command decode pairs|window STREAM   makes a text of a stream
  bridgenook-command size                         says how much room pairs take, or how many fit
  bridgenook-command check-book FILE              says whether a book passes
  bridgenook-command merge FILE...                merges sketches into one
  bridgenook-command help SUBCOMMAND              says all of one of them, with an example

A file called - is standard input. A file that is written appears whole or not at all, and only once
everything has been judged; a run that is killed may leave one beside it that ends in .partial. On work
of more than a second a line on standard error says how far it is, if that is a terminal or
--progress is given.

The exit status is 0 if it is done, 1 if something is refused, 2 for wrong usage, 3 for a file that
cannot be read or written. A refusal is told on standard error, with its number and its place;
docs/REFUSALS.md has all the numbers. Places count from 0, lines of a text from 1.
";

const REPORT: &str = "\
bridgenook-command report < TEXT

Reads a text of pairs from standard input: lg_k from 4 to 12 and at most 4096 pairs, each 64 * row +
column, rising. Writes its flavor, its offset and its stream by the practice book, or the one line
refused=NUMBER.

  $ printf 'lg_k=4\\npairs=3\\np0=5\\np1=70\\np2=71\\n' | bridgenook-command report
";

const ENCODE: &str = "\
bridgenook-command encode pairs TEXT [--book FILE] [--output STREAM]
bridgenook-command encode window TEXT [--book FILE] [--output STREAM]

Makes a stream of a text. Numbers are decimals without leading zeros, and every line ends in a newline.

  pairs     lg_k=NUMBER, pairs=NUMBER, then p0=NUMBER, p1=NUMBER and so on, rising
  window    lg_k=NUMBER, then w0=NUMBER, w1=NUMBER and so on, 2^lg_k bytes

--book names a book as text: 65 decimals for pairs, 256 for a window, one to a line. Without it the
practice book serves. With --output what decode must be told, and the stream's length, is printed;
without it the stream goes to standard output.

  $ printf 'lg_k=4\\npairs=3\\np0=5\\np1=70\\np2=71\\n' >pairs.txt
  $ bridgenook-command encode pairs pairs.txt --output pairs.stream
";

const DECODE: &str = "\
bridgenook-command decode pairs STREAM --lg-k NUMBER --pairs NUMBER [--book FILE] [--output TEXT]
bridgenook-command decode window STREAM --lg-k NUMBER [--book FILE] [--output TEXT]

Makes the text that encode takes of a stream. A stream does not say its lg_k, its number of pairs or
its book: they must be those that it was made with. Bytes after the stream do not matter.

  $ bridgenook-command decode pairs pairs.stream --lg-k 4 --pairs 3
";

const SIZE: &str = "\
bridgenook-command size --lg-k NUMBER --pairs NUMBER
bridgenook-command size --bytes NUMBER

With --lg-k and --pairs: the bits, the words of 32 bits and the bytes that a stream of so many pairs
takes at the most, whatever the pairs and the book.
With --bytes: the pairs that a stream of so many bytes can hold at the most, whatever it holds.

  $ bridgenook-command size --lg-k 12 --pairs 1000
  $ bridgenook-command size --bytes 1024
";

const CHECK_BOOK: &str = "\
bridgenook-command check-book FILE

Says whether a book passes. It is a text of 65 decimals, for pairs, or 256, for windows, one to a
line: length * 4096 + codeword, the length 1 to 12 and the codeword below 2^length. It passes if every
number of twelve bits has exactly one symbol whose codeword is its low bits.

  $ bridgenook-command check-book book.txt
";

const MERGE: &str = "\
bridgenook-command merge FILE... --lg-k NUMBER --seed NUMBER [--summary] [--output FILE]

Merges sketches into a union of this lg_k and seed, and writes it as such a sketch; its lg_k is the least
of the sketches' that are not empty and of that which is given. With --summary only lg_k, coupons and flavor.

A sketch is a text of these lines:

  lg_k=NUMBER
  seed=NUMBER
  coupons=NUMBER
  pairs=NUMBER     how many are listed
  p0=NUMBER        and so on, rising
  w0=NUMBER        and so on, 2^lg_k bytes, the window; none if 32 * coupons < 3 * 2^lg_k

Without a window the list has every pair. With one it has the surprises: the pairs above the window's eight
columns, and those below it that are absent.

  $ printf 'lg_k=5\\nseed=9001\\ncoupons=2\\npairs=2\\np0=5\\np1=70\\n' >a.txt
  $ printf 'lg_k=6\\nseed=9001\\ncoupons=1\\npairs=1\\np0=71\\n' >b.txt
  $ bridgenook-command merge a.txt b.txt --lg-k 12 --seed 9001 --summary
";

pub fn run(words: Vec<OsString>) -> Result<(), Failure> {
    let topics: Vec<_> = words.iter().filter_map(|word| word.to_str()).collect();
    let text = match topics.as_slice() {
        [] | ["help" | "--help" | "-h"] => ALL,
        ["report"] => REPORT,
        ["encode"] => ENCODE,
        ["decode"] => DECODE,
        ["size"] => SIZE,
        ["check-book"] => CHECK_BOOK,
        ["merge"] => MERGE,
        _ => {
            return Err(Failure::Usage(format!(
                "help: there is no subcommand {}; `bridgenook-command help` lists them",
                topics.join(" ")
            )));
        }
    };
    output::print(text)
}

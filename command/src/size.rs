//! `size`: the room that pairs take at the most, or the pairs that a file can hold at the most.

use std::ffi::OsString;

use bridgenook::numbers;

use crate::arguments::Arguments;
use crate::arguments::Options;
use crate::claims;
use crate::failure::Failure;
use crate::failure::Told;
use crate::output;

const OPTIONS: Options = Options {
    subcommand: "size",
    with_value: &["--lg-k", "--pairs", "--bytes"],
    alone: &[],
};

pub fn run(words: Vec<OsString>) -> Result<(), Failure> {
    let arguments = Arguments::take(&OPTIONS, words)?;
    let [] = arguments.names("no names")?;
    match (
        arguments.number("--bytes")?,
        arguments.number("--lg-k")?,
        arguments.number("--pairs")?,
    ) {
        (Some(bytes), None, None) => say_pairs_of(bytes),
        (None, Some(_), Some(pairs)) => say_room_for(arguments.lg_k()?, pairs),
        _ => Err(arguments.usage("it takes --lg-k with --pairs, or --bytes alone".to_string())),
    }
}

fn say_room_for(lg_k: u8, pairs: u64) -> Result<(), Failure> {
    // More than a u32 holds is refused by 4, as its largest is.
    let count = u32::try_from(pairs).unwrap_or(u32::MAX);
    let (bits, words) = numbers::most_bits(lg_k, count)
        .map_err(|refused| Told::from(refused).about(format_args!("--pairs {pairs}")))?;
    output::print(&format!(
        "bits={bits}\nwords={words}\nbytes={}\n",
        words.bytes()
    ))
}

fn say_pairs_of(bytes: u64) -> Result<(), Failure> {
    claims::judge_length(bytes).map_err(|told| told.about(format_args!("--bytes {bytes}")))?;
    output::print(&format!("pairs={}\n", claims::most_pairs_in(bytes)))
}

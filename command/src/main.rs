//! The command for people, over the proved library: `bridgenook-command help` says what it does.

mod arguments;
mod book_text;
mod check_book;
mod claims;
mod decode;
mod encode;
mod failure;
mod help;
mod input;
mod merge;
mod output;
mod pair_text;
mod progress;
mod report;
mod size;
mod sketch_text;
mod text;
mod window_text;

use std::env;
use std::ffi::OsString;
use std::process::ExitCode;

use crate::failure::Failure;

type Subcommand = fn(Vec<OsString>) -> Result<(), Failure>;

fn subcommand(name: &str) -> Option<Subcommand> {
    Some(match name {
        "report" => report::run,
        "encode" => encode::run,
        "decode" => decode::run,
        "size" => size::run,
        "check-book" => check_book::run,
        "merge" => merge::run,
        "help" | "--help" | "-h" => help::run,
        _ => return None,
    })
}

fn run() -> Result<(), Failure> {
    let mut words = env::args_os().skip(1);
    let Some(name) = words.next() else {
        return Err(Failure::Usage(format!("no subcommand\n\n{}", help::ALL)));
    };
    let known = name.to_str().and_then(subcommand).ok_or_else(|| {
        Failure::Usage(format!(
            "there is no subcommand {}; `bridgenook-command help` lists them",
            name.display()
        ))
    })?;
    let rest: Vec<_> = words.collect();
    if rest.iter().any(|word| word == "--help" || word == "-h") {
        return help::run(vec![name]);
    }
    known(rest)
}

fn main() -> ExitCode {
    match run() {
        Ok(()) => ExitCode::SUCCESS,
        Err(failure) => {
            if !failure.is_closed_pipe() {
                eprintln!("bridgenook-command: {failure}");
            }
            failure.status()
        }
    }
}

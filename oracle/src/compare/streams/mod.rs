//! The streams of pairs and windows, written and read.

mod damage;
mod inputs;
mod lent_parts;
pub mod lists;
mod pairs_read;
mod pairs_written;
pub mod phases;
mod sides;
mod steps;
mod windows_read;
mod windows_written;

use crate::books::BookSet;
use crate::cases::RustAnswers;

/// How much is tried.
pub struct Effort {
    /// The pairs of the longest random list.
    pub longest_list: u64,
    /// Of the short streams and lists that are gone through, one in so many is tried.
    pub step: usize,
    /// The bytes of the long streams of zeros.
    pub zeros: usize,
    /// Whether streams and lists of a gigabyte are tried.
    pub huge: bool,
}

/// The stream of document 01's example: pairs 5, 70 and 71 at lg_k 4.
const EXAMPLE: [u8; 8] = [16, 2, 98, 3, 0, 0, 0, 0];

pub fn compare(sets: &[BookSet], rust_answers: &mut RustAnswers, effort: &Effort) {
    pairs_written::compare(sets, rust_answers, effort);
    pairs_read::compare(sets, rust_answers, effort);
    windows_written::compare(sets, rust_answers);
    windows_read::compare(sets, rust_answers, effort);
    lent_parts::compare(sets);
}

//! Reads, writes and merges CPC sketches, over the static library `libbridgenook.a`, whose calls are proved in Rattle.
//!
//! Whatever bytes, lengths and numbers a call is handed, it ends in a result or in a numbered refusal, [`Refused`], and the memory that it
//! is lent then holds exactly what its documentation says. No call reserves memory: whoever calls lends it, as slices. All is judged before
//! anything is written, so that a refusal leaves everything lent as it was, with two exceptions, which stand where they hold: a reader's output
//! keeps the items before the fault, and a duplicate in [`tables::build`] empties the table.
//!
//! Words that all calls share: k is 2^lg_k, and lg_k is 4 to 26. A pair is 64 · row + column. 4294967295, [`RESERVED`], marks an empty slot of a
//! pair table and is never a pair. "Refuses by 1, 2" gives the numbers of a call's refusals in the order in which they are tried.
//!
//! ```
//! use bridgenook::{books, numbers, streams};
//!
//! # fn main() -> Result<(), bridgenook::Refused> {
//! let mut book = [0; books::PAIR_SYMBOLS];
//! let mut table = [0; books::TABLE_ENTRIES];
//! books::practice_pair_book(&mut book)?;
//! books::practice_pair_table(&mut table)?;
//!
//! let pairs = [5, 70, 71];
//! let (_, most_words) = numbers::most_bits(4, 3)?;
//! let mut stream = vec![0; most_words.bytes() as usize];
//! let written = streams::write_pairs(&book, 4, &pairs, &mut stream)?;
//! stream.truncate(written.words.bytes() as usize);
//!
//! let mut read = [0; 3];
//! streams::read_pairs(&book, &table, 4, 3, &stream, &mut read)?;
//! assert_eq!(read, pairs);
//!
//! let refused = streams::read_pairs(&book, &table, 4, 3, &stream[..4], &mut read).unwrap_err();
//! assert_eq!(refused.to_string(), "refused (6): the stream ends inside a read, at pair 2, bit 24");
//! # Ok(())
//! # }
//! ```

mod asking;
mod refused;
mod telling;

pub mod books;
pub mod numbers;
pub mod raw;
pub mod streams;
pub mod tables;
pub mod unions;
pub mod units;

pub use numbers::Flavor;
pub use refused::PlaceOf;
pub use refused::Reason;
pub use refused::Refused;
pub use units::Bits;
pub use units::Words;

/// The number that is never a pair: it marks an empty slot.
pub const RESERVED: u32 = u32::MAX;

/// The version of the library that these bindings were made for: major * 1,000,000 + minor * 1,000 + patch.
pub const VERSION: u32 = 1_000_000;

/// The version of the library that is linked.
pub fn linked_version() -> u32 {
    // It takes nothing, and reads nothing.
    unsafe { raw::bridgenook_version() }
}

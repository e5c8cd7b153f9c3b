//! Rows, flavor, offset, phase, base bits, and the most bits that n pairs take. These calls are lent no memory.

use std::fmt;

use crate::Bits;
use crate::Refused;
use crate::Words;
use crate::asking::ask;
use crate::raw;
use crate::telling::of_numbers;

/// How full a sketch is, which decides what it holds.
#[derive(Clone, Copy, PartialEq, Eq, PartialOrd, Ord, Hash, Debug)]
pub enum Flavor {
    /// No coupons.
    Empty,
    /// 32 coupons < 3k: all pairs are listed, and there is no window.
    Sparse,
    /// 2 coupons < k: a window at offset 0, and the pairs outside of it.
    Hybrid,
    /// 8 coupons < 27k.
    Pinned,
    /// All others: the window has moved, and a pair listed below it means an absence.
    Sliding,
}

impl Flavor {
    /// By the library's numbers, 0 to 4.
    pub(crate) fn of_number(number: u64) -> Self {
        match number {
            0 => Flavor::Empty,
            1 => Flavor::Sparse,
            2 => Flavor::Hybrid,
            3 => Flavor::Pinned,
            _ => Flavor::Sliding,
        }
    }

    /// Whether a sketch of this flavor has a window: all but Empty and Sparse.
    pub fn has_window(self) -> bool {
        self >= Flavor::Hybrid
    }
}

impl fmt::Display for Flavor {
    fn fmt(&self, f: &mut fmt::Formatter<'_>) -> fmt::Result {
        f.write_str(match self {
            Flavor::Empty => "empty",
            Flavor::Sparse => "sparse",
            Flavor::Hybrid => "hybrid",
            Flavor::Pinned => "pinned",
            Flavor::Sliding => "sliding",
        })
    }
}

/// k = 2^lg_k. Refuses by 1.
pub fn rows(lg_k: u8) -> Result<u64, Refused> {
    ask(of_numbers, |answer| unsafe {
        raw::bridgenook_rows(lg_k, answer)
    })
    .map(|values| values[0])
}

/// The flavor with so many coupons, any number of them. Refuses by 1.
///
/// ```
/// use bridgenook::numbers::{Flavor, determine_flavor};
/// assert_eq!(determine_flavor(4, 7), Ok(Flavor::Hybrid));
/// assert_eq!(determine_flavor(3, 7).unwrap_err().to_string(), "refused (1): lg_k is outside 4..26");
/// ```
pub fn determine_flavor(lg_k: u8, coupons: u32) -> Result<Flavor, Refused> {
    ask(of_numbers, |answer| unsafe {
        raw::bridgenook_determine_flavor(lg_k, coupons, answer)
    })
    .map(|values| Flavor::of_number(values[0]))
}

/// The window's first column with so many coupons. Refuses by 1, then by 17 if the coupons exceed 64k.
pub fn determine_correct_offset(lg_k: u8, coupons: u32) -> Result<u8, Refused> {
    ask(of_numbers, |answer| unsafe {
        raw::bridgenook_determine_correct_offset(lg_k, coupons, answer)
    })
    .map(|values| values[0] as u8)
}

/// The phase with so many coupons, 0 to 21, which picks the window's book (see [`crate::books::pick`]). Refuses by 1.
pub fn determine_pseudo_phase(lg_k: u8, coupons: u32) -> Result<u8, Refused> {
    ask(of_numbers, |answer| unsafe {
        raw::bridgenook_determine_pseudo_phase(lg_k, coupons, answer)
    })
    .map(|values| values[0] as u8)
}

/// The low bits of a row step that a stream of so many pairs holds as they are. Refuses by 1.
pub fn number_of_base_bits(lg_k: u8, pairs: u32) -> Result<u8, Refused> {
    ask(of_numbers, |answer| unsafe {
        raw::bridgenook_number_of_base_bits(lg_k, pairs, answer)
    })
    .map(|values| values[0] as u8)
}

/// The bits, and the words, that a stream of so many pairs never passes, whatever the pairs and the book: for sizing memory. Refuses by 1, then by 4 if
/// there are more than 2^28 pairs.
///
/// ```
/// use bridgenook::{Bits, Words, numbers::most_bits};
/// assert_eq!(most_bits(4, 1), Ok((Bits(29), Words(1))));
/// ```
pub fn most_bits(lg_k: u8, pairs: u32) -> Result<(Bits, Words), Refused> {
    ask(of_numbers, |answer| unsafe {
        raw::bridgenook_most_bits(lg_k, pairs, answer)
    })
    .map(|values| (Bits(values[0]), Words(values[1])))
}

//! Bits and words: streams are counted in bits, files in 32-bit words, and one becomes the other only here.

use std::fmt;

use crate::asking::ask_total;
use crate::raw;

/// A length in bits.
#[derive(Clone, Copy, PartialEq, Eq, PartialOrd, Ord, Hash, Debug)]
pub struct Bits(pub u64);

/// A length in words of 32 bits.
#[derive(Clone, Copy, PartialEq, Eq, PartialOrd, Ord, Hash, Debug)]
pub struct Words(pub u64);

impl fmt::Display for Bits {
    fn fmt(&self, f: &mut fmt::Formatter<'_>) -> fmt::Result {
        self.0.fmt(f)
    }
}

impl fmt::Display for Words {
    fn fmt(&self, f: &mut fmt::Formatter<'_>) -> fmt::Result {
        self.0.fmt(f)
    }
}

impl Words {
    /// The bytes of so many words, four to a word; where a u64 cannot hold that number, the largest u64.
    pub fn bytes(self) -> u64 {
        self.0.saturating_mul(4)
    }
}

/// The words that a stream of so many bits fills, the last one with zeros. Never refused.
///
/// ```
/// use bridgenook::units::{Bits, Words, words_for};
/// assert_eq!(words_for(Bits(36)), Words(2));
/// ```
pub fn words_for(bits: Bits) -> Words {
    Words(ask_total(|answer| unsafe {
        raw::bridgenook_words_for(bits.0, answer)
    }))
}

/// The bits that so many words have room for; where a u64 cannot hold that number, the largest u64. Never refused.
pub fn bits_in(words: Words) -> Bits {
    Bits(ask_total(|answer| unsafe {
        raw::bridgenook_bits_in(words.0, answer)
    }))
}

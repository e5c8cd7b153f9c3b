//! Flavor, offset, phase and base bits; the bound on a stream of n pairs; bits and words.

use crate::answer::Answer;

/// The rows k of a lawful lg_k, or refusal 1.
pub fn lawful_rows(lg: u8) -> Result<u64, Answer> {
    match lg {
        4..=26 => Ok(1 << lg),
        _ => Err(Answer::refused(1)),
    }
}

fn of_rows(lg: u8, rule: impl FnOnce(u64) -> Answer) -> Answer {
    lawful_rows(lg).map_or_else(|refused| refused, rule)
}

fn value(value: u64) -> Answer {
    Answer::accepted(&[value])
}

pub fn rows(lg: u8) -> Answer {
    of_rows(lg, value)
}

/// 0 Empty, 1 Sparse, 2 Hybrid, 3 Pinned, 4 Sliding.
pub fn flavor(lg: u8, coupons: u32) -> Answer {
    let c = u64::from(coupons);
    of_rows(lg, |k| {
        value(match c {
            0 => 0,
            _ if 32 * c < 3 * k => 1,
            _ if 2 * c < k => 2,
            _ if 8 * c < 27 * k => 3,
            _ => 4,
        })
    })
}

pub fn offset(lg: u8, coupons: u32) -> Answer {
    let c = u64::from(coupons);
    of_rows(lg, |k| {
        if c > 64 * k {
            Answer::refused(17)
        } else if 8 * c < 19 * k {
            value(0)
        } else {
            value((8 * c - 19 * k) / (8 * k))
        }
    })
}

pub fn phase(lg: u8, coupons: u32) -> Answer {
    let c = u64::from(coupons);
    of_rows(lg, |k| {
        value(match c {
            _ if 1000 * c >= 2375 * k => (c >> (lg - 4)) % 16,
            _ if 4 * c < 3 * k => 16,
            _ if 10 * c < 11 * k => 17,
            _ if 100 * c < 132 * k => 18,
            _ if 3 * c < 5 * k => 19,
            _ if 1000 * c < 1965 * k => 20,
            _ if 1000 * c < 2275 * k => 21,
            _ => 6,
        })
    })
}

pub fn base_bits_of(k: u64, n: u64) -> u64 {
    if n == 0 || n > k {
        0
    } else {
        u64::from((k / n).ilog2())
    }
}

pub fn base_bits(lg: u8, pairs: u32) -> Answer {
    of_rows(lg, |k| value(base_bits_of(k, pairs.into())))
}

/// Our own bound over document 01's stream, in bits and in words. A pair is a code of
/// at most 12 bits, a one, b low bits, and its share of the zeros; all zeros together are fewer than
/// 2n, since k / 2^b is; the pad is at most 10.
pub fn most_bits(lg: u8, pairs: u32) -> Answer {
    let n = u64::from(pairs);
    of_rows(lg, |k| match n {
        0 => Answer::accepted(&[0, 0]),
        _ if n > 1 << 28 => Answer::refused(4),
        _ => {
            let bits = n * (15 + base_bits_of(k, n)) + 10;
            Answer::accepted(&[bits, bits.div_ceil(32)])
        }
    })
}

pub fn words_for(bits: u64) -> Answer {
    value(bits.div_ceil(32))
}

/// The bits of so many words, or the greatest number where they are more.
pub fn bits_in(words: u64) -> Answer {
    value(words.saturating_mul(32))
}

//! Claims, judged before memory is reserved for them: an lg_k, and what a stream of so many bytes can hold at the most.

use bridgenook::numbers;

use crate::failure::Told;

/// Document 01's longest stream to read, and its most pairs.
pub const MOST_STREAM_BYTES: u64 = 1 << 30;
const MOST_PAIRS: u64 = 1 << 28;

/// What a stream is asked for.
#[derive(Clone, Copy)]
pub enum Claim {
    Pairs(u64),
    WindowBytes(u64),
}

/// Refused by 1 if it is outside 4..26; what a u8 cannot hold is as far outside as its largest.
pub fn judged_lg_k(lg_k: u64) -> Result<u8, Told> {
    let lg_k = u8::try_from(lg_k).unwrap_or(u8::MAX);
    numbers::rows(lg_k)?;
    Ok(lg_k)
}

pub fn judge_length(bytes: u64) -> Result<(), Told> {
    match bytes > MOST_STREAM_BYTES {
        true => Err(Told::new(2, "the stream has more than 2^30 bytes")),
        false => Ok(()),
    }
}

/// A pair takes two bits at least, so that no stream of s bytes is accepted for more than 4s pairs; and none is for more than 2^28.
pub fn most_pairs_in(bytes: u64) -> u64 {
    MOST_PAIRS.min(4 * bytes)
}

/// No number of document 01 fits: which one a reader would stop by, only reading could tell.
pub fn judge_claim(claim: Claim, bytes: u64) -> Result<(), Told> {
    let (what, asked, most) = match claim {
        Claim::Pairs(asked) => ("pairs", asked, most_pairs_in(bytes)),
        // a byte of a window takes one bit at least
        Claim::WindowBytes(asked) => ("bytes of a window", asked, 8 * bytes),
    };
    if asked <= most {
        return Ok(());
    }
    Err(Told::without_number(format_args!(
        "{asked} {what} are asked for, and a stream of {bytes} bytes never holds more than {most}"
    )))
}

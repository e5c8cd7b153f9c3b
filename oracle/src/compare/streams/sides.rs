//! What all sides say to one input of a stream call: ours and the reading are lent the same output, the
//! Rust makes its own.

use crate::answer::Answer;
use crate::answer::Lent;
use crate::answer::Spoken;
use crate::answer::lend;
use crate::cases::Sides;
use crate::rust::Said;

type StreamSides<T> = Sides<Lent<Vec<T>>, Spoken<T>>;

/// What each byte of an output holds before.
pub const OUT: u8 = 0x9e;

/// Something written into so many bytes.
pub fn written(
    bytes: usize,
    ours: impl FnOnce(&mut [u8]) -> Answer,
    reading: impl FnOnce(&[u8]) -> Lent<Vec<u8>>,
    rust: Said<Spoken<u8>>,
) -> StreamSides<u8> {
    let out = vec![OUT; bytes];
    let ours = lend(&out, !OUT, ours);
    Sides {
        spoken: ours.spoken(4 * ours.answer.values[1] as usize),
        reading: reading(&out),
        ours,
        rust,
    }
}

/// So many items read into an output of another length.
pub fn read<T: Copy + PartialEq + From<u8>>(
    items: usize,
    length: usize,
    ours: impl FnOnce(&mut [T]) -> Answer,
    reading: impl FnOnce(&[T]) -> Lent<Vec<T>>,
    rust: Said<Spoken<T>>,
) -> StreamSides<T> {
    let out = vec![T::from(OUT); length];
    let ours = lend(&out, T::from(!OUT), ours);
    Sides {
        spoken: ours.spoken(items),
        reading: reading(&out),
        ours,
        rust,
    }
}

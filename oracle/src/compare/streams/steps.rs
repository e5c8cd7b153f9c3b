//! Streams of steps that no writer takes: rows beyond k, columns beyond 63, the reserved number.

use crate::plain_reading::bits::Bits;
use crate::plain_reading::numbers::base_bits_of;
use crate::random::Random;

/// So many pairs, of which about one in so many has a step that may be too large.
pub fn random_stream(book: &[u16], lg: u8, count: u64, random: &mut Random) -> Vec<u8> {
    let k = 1 << lg;
    let b = base_bits_of(k, count);
    let mut bits = Bits::default();
    for _ in 0..count {
        let large = random.below(count) == 0;
        let column_step = random.below(if large { 65 } else { 64 / count + 1 });
        let row_step = match random.below(if large { 3 } else { 2 }) {
            0 => 0,
            1 => random.below(2 * k / count + 1),
            _ => random.below(k + 1),
        };
        bits.put_steps(book, b, column_step, row_step);
    }
    bits.put_zeros(10u64.saturating_sub(b));
    bits.words()
}

/// One large step after one small step or none, with the base bits that its own count gives. Where b is
/// small a step of 2^32 is a long run of zeros, and is left out.
pub fn around_limits(book: &[u16]) -> Vec<(u8, Vec<u8>)> {
    let mut streams = vec![];
    for lg in 4..=26 {
        let k = 1 << lg;
        let limits = [k, 1 << 32];
        let row_steps = limits.map(|limit| [limit - 2, limit - 1, limit, limit + 1]);
        let near = |step: &u64| step >> lg < 1 << 12;
        for row_step in row_steps.into_iter().flatten().filter(near) {
            for column_step in [0, 1, 62, 63, 64] {
                streams.push((lg, stream(book, k, &[(column_step, row_step)])));
                let two = [(column_step, 1), (64 - column_step, row_step)];
                streams.push((lg, stream(book, k, &two)));
            }
        }
        for (one, other) in [(63, 0), (63, 1), (0, 62), (0, 63), (0, 64)] {
            streams.push((lg, stream(book, k, &[(one, 0), (other, 0)])));
        }
    }
    streams
}

fn stream(book: &[u16], k: u64, steps: &[(u64, u64)]) -> Vec<u8> {
    let mut bits = Bits::default();
    for &(column_step, row_step) in steps {
        bits.put_steps(
            book,
            base_bits_of(k, steps.len() as u64),
            column_step,
            row_step,
        );
    }
    bits.put_zeros(10);
    bits.words()
}

//! Copies of a stream that are cut, lengthened, or have bits flipped.

use crate::random::Random;

/// A stream this short is cut at every length, and each of its bits is flipped.
const SHORT: usize = 24;

/// The whole stream, and its damaged copies: every one of a short stream, some of a long one.
pub fn copies(stream: &[u8], random: &mut Random) -> Vec<Vec<u8>> {
    let mut copies = vec![stream.to_vec(), lengthened(stream, random)];
    if stream.len() <= SHORT {
        copies.extend((0..stream.len()).map(|length| stream[..length].to_vec()));
        copies.extend((0..8 * stream.len()).map(|bit| flipped(stream, bit)));
    } else {
        copies.extend((0..6).map(|less| stream[..stream.len() - 1 - less].to_vec()));
        for _ in 0..2 {
            let length = random.below(stream.len() as u64) as usize;
            copies.push(stream[..length].to_vec());
            let bit = random.below(8 * stream.len() as u64) as usize;
            copies.push(flipped(stream, bit));
        }
    }
    copies
}

/// One to nine bytes of anything follow.
fn lengthened(stream: &[u8], random: &mut Random) -> Vec<u8> {
    let more = 1 + random.below(9);
    let after = (0..more).map(|_| random.number() as u8);
    stream.iter().copied().chain(after).collect()
}

fn flipped(stream: &[u8], bit: usize) -> Vec<u8> {
    let mut stream = stream.to_vec();
    stream[bit / 8] ^= 1 << (bit % 8);
    stream
}

/// The bits from so many on, which decide nothing, become random.
pub fn with_other_pad(stream: &[u8], from: u64, random: &mut Random) -> Vec<u8> {
    let pad = from as usize..8 * stream.len();
    let flip = |stream: Vec<u8>, bit| match random.below(2) {
        0 => stream,
        _ => flipped(&stream, bit),
    };
    pad.fold(stream.to_vec(), flip)
}

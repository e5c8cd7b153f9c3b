//! Ways in which a copy of a sketch's file is wrong. Each is applied to a whole lawful file of a sketch with a window and a list.

use crate::sketch_file::HEAD_BYTES;

type Damage = fn(&mut Vec<u8>);

pub const DAMAGES: [(&str, Damage); 10] = [
    ("the last word of the pairs cut", cut_pairs),
    ("the last word of the window cut", cut_window),
    ("the last byte of the file cut", cut_file),
    ("the first word of the pairs zeroed", |bytes| {
        change_number(bytes, HEAD_BYTES, |_| 0)
    }),
    ("the first bit of the window flipped", |bytes| {
        let start = window_start(bytes);
        bytes[start] ^= 1;
    }),
    ("half the rows", |bytes| bytes[LG_K] -= 1),
    ("an lg_k of 27", |bytes| bytes[LG_K] = 27),
    ("another seed", |bytes| bytes[SEED] ^= 1),
    ("one coupon more", |bytes| {
        change_number(bytes, COUPONS, |coupons| coupons + 1)
    }),
    ("one pair more than the bytes can hold", |bytes| {
        let most = 4 * number_at(bytes, PAIR_BYTES);
        change_number(bytes, PAIRS, |_| most + 1);
    }),
];

// Where the head has its numbers.
const LG_K: usize = 7;
const SEED: usize = 8;
const COUPONS: usize = 16;
const PAIRS: usize = 20;
const PAIR_BYTES: usize = 24;
const WINDOW_BYTES: usize = 28;

fn number_at(bytes: &[u8], place: usize) -> u32 {
    u32::from_le_bytes([0, 1, 2, 3].map(|i| bytes[place + i]))
}

fn change_number(bytes: &mut [u8], place: usize, change: impl FnOnce(u32) -> u32) {
    let changed = change(number_at(bytes, place));
    bytes[place..place + 4].copy_from_slice(&changed.to_le_bytes());
}

fn window_start(bytes: &[u8]) -> usize {
    HEAD_BYTES + number_at(bytes, PAIR_BYTES) as usize
}

fn cut_pairs(bytes: &mut Vec<u8>) {
    let end = window_start(bytes);
    bytes.drain(end - 4..end);
    change_number(bytes, PAIR_BYTES, |length| length - 4);
}

fn cut_window(bytes: &mut Vec<u8>) {
    bytes.truncate(bytes.len() - 4);
    change_number(bytes, WINDOW_BYTES, |length| length - 4);
}

fn cut_file(bytes: &mut Vec<u8>) {
    bytes.pop();
}

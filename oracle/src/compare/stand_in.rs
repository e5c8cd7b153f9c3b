//! Not a comparison with ours: the Rust reads back what it wrote with each book set. So the stand-in
//! for its code tables hands it the books of the file, and the decoding tables that belong to them.

use crate::answer::Spoken;
use crate::books::BookSet;
use crate::random::Random;
use crate::rust;

pub fn check(sets: &[BookSet]) {
    let mut random = Random::new(5);
    let mut streams = 0;
    for set in sets {
        rust::install(set);
        for lg in 4..=9 {
            // Up to 8k coupons take every phase: 16 to 21 and 6 first, then 0 to 15 in turn.
            for coupons in (0..8 << lg).step_by(1 << (lg - 4)) {
                check_window(lg, coupons, set, &mut random);
                check_pairs(lg, set, &mut random);
                streams += 2;
            }
        }
    }
    println!("stand-in for the code tables: the Rust read back {streams} streams of its own");
}

fn check_window(lg: u8, coupons: u32, set: &BookSet, random: &mut Random) {
    let window: Vec<u8> = (0..1 << lg).map(|_| random.number() as u8).collect();
    let stream = rust::encode_window(&window, lg, coupons).items();
    let back = rust::decode_window(&stream, lg, coupons);
    assert!(
        back.is(&Spoken::Items(window)),
        "a window of {} at lg_k {lg}, {coupons} coupons, is not read back",
        set.name
    );
}

fn check_pairs(lg: u8, set: &BookSet, random: &mut Random) {
    let wanted = 1 + random.below(3 << lg);
    let mut pairs: Vec<u32> = (0..wanted).map(|_| random.below(64 << lg) as u32).collect();
    pairs.sort_unstable();
    pairs.dedup();
    let stream = rust::encode_pairs(&pairs, lg).items();
    let back = rust::decode_pairs(&stream, pairs.len() as u32, lg);
    assert!(
        back.is(&Spoken::Items(pairs)),
        "a list of pairs of {} at lg_k {lg} is not read back",
        set.name
    );
}

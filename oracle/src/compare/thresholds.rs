//! The inputs around which an answer can change, for each lg_k.

use std::collections::BTreeSet;

/// A share of the rows k.
#[derive(Clone, Copy)]
pub struct Share(pub u128, pub u128);

/// Where the flavor changes.
pub const FLAVORS: [Share; 3] = [Share(3, 32), Share(1, 2), Share(27, 8)];

/// Where the phase changes before it is steady, and where it becomes so.
pub const PHASES: [Share; 7] = [
    Share(3, 4),
    Share(11, 10),
    Share(132, 100),
    Share(5, 3),
    Share(1965, 1000),
    Share(2275, 1000),
    Share(2375, 1000),
];

/// Every cell of the matrix is set.
pub const ALL_CELLS: Share = Share(64, 1);

/// Where the offset becomes `offset`, which is at most 61; 0 is where it starts to be counted.
pub const fn offset_share(offset: u128) -> Share {
    Share(19 + 8 * offset, 8)
}

/// The least number that is not below the share, if 64 bits hold the rows.
pub fn least_not_below(lg: u8, share: Share) -> Option<i128> {
    (lg < 64).then(|| (share.0 << lg).div_ceil(share.1) as i128)
}

/// Each place and two to either side, as far as 32 bits hold them.
fn around(places: impl IntoIterator<Item = i128>) -> impl Iterator<Item = u32> {
    let beside = |place| (place - 2..=place + 2).filter_map(|count| u32::try_from(count).ok());
    places.into_iter().flat_map(beside)
}

/// The least and the greatest counts are tried with every lg_k.
const ENDS: [i128; 2] = [0, u32::MAX as i128];

/// Counts of coupons around every threshold of flavor, offset and phase.
pub fn coupons(lg: u8) -> BTreeSet<u32> {
    let offsets = (0..=61).map(offset_share);
    let mut shares: Vec<Share> = offsets.chain(FLAVORS).chain(PHASES).collect();
    shares.push(ALL_CELLS);
    if (4..=26).contains(&lg) {
        // The steady phase steps at each sixteenth of k.
        shares.extend((38..=1024).map(|step| Share(step, 16)));
    }
    let places = shares
        .into_iter()
        .filter_map(|share| least_not_below(lg, share));
    around(places.chain(ENDS)).collect()
}

/// Counts of pairs around every threshold of the base bits, around the most that are taken, and
/// around where the Rust's sum of rows and pairs passes 32 bits.
pub fn pairs(lg: u8) -> BTreeSet<u32> {
    let halvings = (0..=u32::from(lg).min(63)).map(|times| Share(1, 1 << times));
    let places = halvings.filter_map(|share| least_not_below(lg, share));
    let rows = least_not_below(lg, Share(1, 1));
    let overflow = rows.map(|rows| (1 << 32) - rows);
    let few = 0..=64;
    around(places.chain(overflow).chain([1 << 28]).chain(ENDS))
        .chain(few)
        .collect()
}

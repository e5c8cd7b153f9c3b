//! Lawful lists of pairs: how many, and how they lie.

use crate::random::Random;

/// How the pairs of a list lie over the cells.
#[derive(Clone, Copy)]
pub enum Spread {
    Even,
    /// Next to each other, with a few gaps, from anywhere on.
    Dense,
    /// Next to each other for a while, then a gap.
    Clustered,
    /// With gaps of any length.
    Uneven,
}

pub const SPREADS: [Spread; 3] = [Spread::Even, Spread::Dense, Spread::Uneven];

/// All cells of k rows, without the reserved one.
pub fn cells(lg: u8) -> u64 {
    (64u64 << lg).min(u32::MAX.into())
}

/// So many increasing pairs.
pub fn random_list(lg: u8, count: u64, spread: Spread, random: &mut Random) -> Vec<u32> {
    increasing(cells(lg), count, spread, random)
}

/// So many increasing numbers below a limit, which are not more than that.
pub fn increasing(limit: u64, count: u64, spread: Spread, random: &mut Random) -> Vec<u32> {
    let mut next = 0;
    let number = |left: u64| {
        let free = limit - next - left;
        let gap = match spread {
            Spread::Even => random.below(2 * (free / left) + 1),
            Spread::Dense if left == count => random.below(free + 1),
            Spread::Dense if random.below(16) == 0 => random.below(128),
            Spread::Dense => 0,
            Spread::Clustered if random.below(300) == 0 => random.below(600 * (free / left) + 1),
            Spread::Clustered => 0,
            Spread::Uneven => random.below(free + 1) >> random.below(33),
        };
        let number = next + gap.min(free);
        next = number + 1;
        number as u32
    };
    (1..=count).rev().map(number).collect()
}

/// A number of pairs for each number of base bits at k = 2^lg, and one over k, as far as they are not
/// over the limit: the least such number, the greatest, or one between.
pub fn counts(lg: u8, limit: u64, random: &mut Random) -> Vec<u64> {
    let halvings = (0..=lg).map(|b| ((1 << lg >> (b + 1)) + 1, 1 << lg >> b));
    let ranges = halvings.chain([((1 << lg) + 1, cells(lg))]);
    let within = |(least, greatest): (u64, u64)| {
        let greatest = greatest.min(limit);
        (least <= greatest).then(|| match random.below(3) {
            0 => least,
            1 => greatest,
            _ => least + random.below(greatest - least + 1),
        })
    };
    ranges.filter_map(within).collect()
}

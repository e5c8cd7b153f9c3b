//! The viewers: each counts ticket numbers in a matrix, which is then split into a sketch.

use bridgenook::Flavor;
use bridgenook::Refused;
use bridgenook::numbers;
use bridgenook::unions;
use bridgenook::unions::Source;

use crate::sketch_file::Sketch;

/// A viewer counts so many ticket numbers from the first on.
pub struct Viewer {
    lg_k: u8,
    first: u64,
    tickets: u64,
}

/// One of each flavor that has coupons.
pub const VIEWERS: [Viewer; 4] = [
    Viewer::new(11, 0, 150),
    Viewer::new(10, 100, 400),
    Viewer::new(9, 300, 1200),
    Viewer::new(8, 1000, 20000),
];

impl Viewer {
    const fn new(lg_k: u8, first: u64, tickets: u64) -> Self {
        Self {
            lg_k,
            first,
            tickets,
        }
    }

    pub fn sketch(&self, seed: u64) -> Result<(Sketch, Flavor), Refused> {
        let matrix = self.count(seed)?;
        let mut window = vec![0; matrix.len()];
        // A list of 64k pairs always fits.
        let mut pairs = vec![0; 64 * matrix.len()];
        let summary = unions::split(self.lg_k, &matrix, &mut window, &mut pairs)?;
        pairs.truncate(summary.pairs as usize);
        if !summary.flavor.has_window() {
            window.clear();
        }
        let source = Source {
            lg_k: self.lg_k,
            seed,
            coupons: summary.coupons,
        };
        let sketch = Sketch {
            source,
            window,
            pairs,
        };
        Ok((sketch, summary.flavor))
    }

    /// A ticket is a pair: the row by the hash's low bits, the column by its leading zeros, so that each column is half as likely as the one before.
    fn count(&self, seed: u64) -> Result<Vec<u64>, Refused> {
        let rows = numbers::rows(self.lg_k)?;
        let mut matrix = vec![0; rows as usize];
        for ticket in self.first..self.first + self.tickets {
            let hash = hash_of(seed, ticket);
            matrix[(hash % rows) as usize] |= 1 << hash.leading_zeros().min(63);
        }
        Ok(matrix)
    }
}

/// SplitMix64's step: a plain hash, the same in every host.
fn hash_of(seed: u64, ticket: u64) -> u64 {
    let mut hash = seed
        .wrapping_add(ticket)
        .wrapping_add(0x9e37_79b9_7f4a_7c15);
    hash = (hash ^ (hash >> 30)).wrapping_mul(0xbf58_476d_1ce4_e5b9);
    hash = (hash ^ (hash >> 27)).wrapping_mul(0x94d0_49bb_1331_11eb);
    hash ^ (hash >> 31)
}

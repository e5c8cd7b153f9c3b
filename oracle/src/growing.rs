//! Sketches that the crate grows itself, by hashes.

use datasketches::cpc::CpcSketch;

use crate::random::Random;

/// The seed of most unions and sketches.
pub const SEED: u64 = 9001;

/// A sketch of so many items.
pub fn grown(lg: u8, items: u64, random: &mut Random) -> CpcSketch {
    let mut sketch = CpcSketch::with_seed(lg, SEED).expect("the Rust takes this seed");
    (0..items).for_each(|_| sketch.update(random.number()));
    sketch
}

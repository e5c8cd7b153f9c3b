//! The calls on matrices and unions.

use bridgenook::raw;

use super::answered;
use crate::answer::Answer;
use crate::lent_matrices::Sketch;

pub fn count(lg: u8, matrix: &[u64]) -> Answer {
    answered(|answer| unsafe { raw::bridgenook_count(lg, matrix.as_ptr(), matrix.len(), answer) })
}

pub fn split(lg: u8, matrix: &[u64], window: &mut [u8], pairs: &mut [u32]) -> Answer {
    answered(|answer| unsafe {
        raw::bridgenook_split(
            lg,
            matrix.as_ptr(),
            matrix.len(),
            window.as_mut_ptr(),
            window.len(),
            pairs.as_mut_ptr(),
            pairs.len(),
            answer,
        )
    })
}

pub fn expand(sketch: &Sketch, matrix: &mut [u64]) -> Answer {
    answered(|answer| unsafe {
        raw::bridgenook_expand(
            sketch.lg,
            sketch.coupons,
            sketch.window.as_ptr(),
            sketch.window.len(),
            sketch.pairs.as_ptr(),
            sketch.pairs.len(),
            matrix.as_mut_ptr(),
            matrix.len(),
            answer,
        )
    })
}

pub fn new_union(lg: u8, seed: u64, matrix: &mut [u64]) -> Answer {
    answered(|answer| unsafe {
        raw::bridgenook_new_union(lg, seed, matrix.as_mut_ptr(), matrix.len(), answer)
    })
}

/// A union's record, besides its matrix: configured lg_k, present lg_k, seed.
pub type Record = (u8, u8, u64);

/// The source's seed is given beside it.
pub fn merge((lg, present, own): Record, matrix: &mut [u64], source: &Sketch, seed: u64) -> Answer {
    answered(|answer| unsafe {
        raw::bridgenook_merge(
            lg,
            present,
            own,
            matrix.as_mut_ptr(),
            matrix.len(),
            source.lg,
            seed,
            source.coupons,
            source.window.as_ptr(),
            source.window.len(),
            source.pairs.as_ptr(),
            source.pairs.len(),
            answer,
        )
    })
}

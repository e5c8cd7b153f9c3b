//! The wall's controller: a union, and the files that are merged into it.

use std::path::Path;

use bridgenook::Flavor;
use bridgenook::Refused;
use bridgenook::numbers;
use bridgenook::unions;
use bridgenook::unions::Union;

use crate::practice_books::PracticeBooks;
use crate::sketch_file;
use crate::sketch_file::Sketch;
use crate::trouble::Trouble;

pub struct Wall {
    union: Union,
    matrix: Vec<u64>,
}

impl Wall {
    pub fn new(lg_k: u8, seed: u64) -> Result<Self, Refused> {
        let mut matrix = vec![0; numbers::rows(lg_k)? as usize];
        let union = unions::new_union(lg_k, seed, &mut matrix)?;
        Ok(Self { union, matrix })
    }

    pub fn present_lg_k(&self) -> u8 {
        self.union.present_lg_k
    }

    /// From a file to the union, believing nothing.
    pub fn merge_file(&mut self, books: &PracticeBooks, path: &Path) -> Result<(), Trouble> {
        let Sketch {
            source,
            window,
            pairs,
        } = Sketch::of_bytes(books, &sketch_file::load(path)?)?;
        unions::merge(&mut self.union, &mut self.matrix, source, &window, &pairs)?;
        Ok(())
    }

    /// The coupons, and the flavor of the sketch that they make at the present lg_k; the matrix's rows beyond it are zero.
    pub fn count(&self) -> Result<(u32, Flavor), Refused> {
        let coupons = unions::count(self.union.lg_k, &self.matrix)?;
        let flavor = numbers::determine_flavor(self.union.present_lg_k, coupons)?;
        Ok((coupons, flavor))
    }
}

//! Sketches by their parts, and the union, whose fields are private to its file: so that is the crate's own
//! text a second time.

use self::union_again::CpcUnion;
use super::Inside;
use crate::cpc::CpcSketch;
use crate::cpc::determine_correct_offset;
use crate::cpc::pair_table::PairTable;
use crate::error::Error;

/// lg_k, seed and state of a union: a sketch as long as the Rust has one, else the matrix.
type Fields = (u8, u64, Result<CpcSketch, Vec<u64>>);

/// `union.rs` as `prepare` lays it here, with the way from a union to its fields and back inside it.
#[allow(dead_code)]
mod union_again {
    include!("union_without_heading.rs");

    impl CpcUnion {
        pub fn of_fields((lg_k, seed, state): super::Fields) -> Self {
            let state = match state {
                Ok(sketch) => UnionState::Accumulator(sketch),
                Err(matrix) => UnionState::BitMatrix(matrix),
            };
            Self { lg_k, seed, state }
        }

        pub fn into_fields(self) -> super::Fields {
            let state = match self.state {
                UnionState::Accumulator(sketch) => Ok(sketch),
                UnionState::BitMatrix(matrix) => Err(matrix),
            };
            (self.lg_k, self.seed, state)
        }
    }
}

impl Inside {
    /// As `deserialize` makes a sketch, from a list and a window that are already decoded.
    pub fn sketch_of_parts(
        &self,
        (lg_k, seed): (u8, u64),
        num_coupons: u32,
        window: &[u8],
        pairs: &[u32],
    ) -> Result<CpcSketch, Error> {
        let mut sketch = CpcSketch::with_seed(lg_k, seed)?;
        let table = PairTable::from_slots(lg_k, pairs.len() as u32, pairs.to_vec())?;
        sketch.num_coupons = num_coupons;
        sketch.surprising_value_table = Some(table);
        sketch.window_offset = determine_correct_offset(lg_k, num_coupons);
        sketch.sliding_window = window.to_vec();
        sketch.merge_flag = true;
        Ok(sketch)
    }

    /// Coupons, offset, first interesting column, window, and the items of the table in any order.
    pub fn parts_of_sketch(&self, sketch: &CpcSketch) -> (u32, u8, u8, Vec<u8>, Vec<u32>) {
        let table = sketch.surprising_value_table.as_ref();
        (
            sketch.num_coupons,
            sketch.window_offset,
            sketch.first_interesting_column,
            sketch.sliding_window.clone(),
            table.map_or(vec![], PairTable::unwrapping_get_items),
        )
    }

    pub fn row_col_update(&self, sketch: &mut CpcSketch, row_col: u32) {
        sketch.row_col_update(row_col);
    }

    pub fn build_bit_matrix(&self, sketch: &CpcSketch) -> Vec<u64> {
        sketch.build_bit_matrix()
    }

    pub fn union_new(&self, lg_k: u8, seed: u64) -> Result<Fields, Error> {
        CpcUnion::with_seed(lg_k, seed).map(CpcUnion::into_fields)
    }

    pub fn union_update(&self, fields: Fields, sketch: &CpcSketch) -> Result<Fields, Error> {
        let mut union = CpcUnion::of_fields(fields);
        union.update(sketch)?;
        Ok(union.into_fields())
    }

    /// The union is handed back, so that a benchmark need not copy it.
    pub fn union_to_sketch(&self, fields: Fields) -> (CpcSketch, Fields) {
        let union = CpcUnion::of_fields(fields);
        (union.to_sketch(), union.into_fields())
    }
}

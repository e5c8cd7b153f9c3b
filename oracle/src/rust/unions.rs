//! The Rust's sketches, made from their parts, and its union.

use datasketches::cpc::CpcSketch;
use datasketches::error::Error;

use super::Said;
use super::listen;
use crate::answer::Answer;
use crate::answer::Spoken;
use crate::growing::SEED;
use crate::lent_matrices::Parts;
use crate::lent_matrices::Sketch;
use crate::lent_matrices::SpokenParts;
use crate::lent_matrices::Union;
use crate::plain_reading::unions::coupons;
use crate::plain_reading::unions::has_window;

/// lg_k, seed and state of a union: a sketch as long as the Rust has one, else the matrix.
type Fields = (u8, u64, Result<CpcSketch, Vec<u64>>);

pub fn count(matrix: &[u64]) -> Said<Answer> {
    let count = || CpcSketch::inside().count_bits_set_in_matrix(matrix);
    listen(count).map(|count| Answer::accepted(&[count.into()]))
}

fn sketch(sketch: &Sketch, seed: u64) -> Result<CpcSketch, Error> {
    let Sketch {
        lg,
        coupons,
        window,
        pairs,
    } = sketch;
    CpcSketch::inside().sketch_of_parts((*lg, seed), *coupons, window, pairs)
}

/// A sketch that the crate has made, as it is lent to ours.
pub fn parts(sketch: &CpcSketch) -> Sketch {
    let (coupons, _, _, window, mut pairs) = CpcSketch::inside().parts_of_sketch(sketch);
    pairs.sort_unstable();
    Sketch {
        lg: sketch.lg_k(),
        coupons,
        window,
        pairs,
    }
}

/// Any seed that the Rust takes will do, since an expansion has none.
pub fn expand(lent: &Sketch) -> Said<Spoken<u64>> {
    let expanded = || sketch(lent, SEED).map(|made| CpcSketch::inside().build_bit_matrix(&made));
    listen(expanded).map(spoken)
}

/// Of a sketch that the crate has made.
pub fn build_bit_matrix(sketch: &CpcSketch) -> Said<Spoken<u64>> {
    listen(|| CpcSketch::inside().build_bit_matrix(sketch)).map(Spoken::Items)
}

fn spoken(result: Result<Vec<u64>, Error>) -> Spoken<u64> {
    match result {
        Ok(words) => Spoken::Items(words),
        Err(error) => Spoken::Refusal(number_of(error.message())),
    }
}

/// Document 01's number for what the Rust says; 0 for a seed whose hash is 0, for which it has none.
fn number_of(message: &str) -> u32 {
    match message {
        "CPC pair table contains a duplicate pair" => 11,
        other if other.starts_with("lg_k must be in [4, 26]") => 1,
        other if other.starts_with("CPC sketch seed must match union seed") => 16,
        other if other.contains("seed") => 0,
        other => panic!("document 01 has no number for: {other}"),
    }
}

/// Whether the Rust refuses a seed for its hash.
pub fn refuses_seed(seed: u64) -> bool {
    CpcSketch::with_seed(4, seed).is_err()
}

/// A union of the Rust, which is spoken of as its present lg_k and the words of its present rows.
#[derive(Clone)]
pub struct RustUnion(Fields);

impl RustUnion {
    pub fn new(lg: u8, seed: u64) -> Result<Self, Error> {
        CpcSketch::inside().union_new(lg, seed).map(Self)
    }

    /// A sketch, as the Rust has it while the coupons are few: they are taken in one by one.
    fn with_sketch(lg: u8, seed: u64, rows: &[u64]) -> Result<Self, Error> {
        let mut sketch = CpcSketch::with_seed(lg, seed)?;
        for (row, &word) in rows.iter().enumerate() {
            for column in (0..64).filter(|column| word >> column & 1 == 1) {
                CpcSketch::inside().row_col_update(&mut sketch, 64 * row as u32 + column);
            }
        }
        Ok(Self((lg, seed, Ok(sketch))))
    }

    fn with_matrix(lg: u8, seed: u64, rows: &[u64]) -> Self {
        Self((lg, seed, Err(rows.to_vec())))
    }

    /// In the state that the Rust's own would have: it has a matrix once its coupons have been more than Sparse, and
    /// no fold makes them Sparse again, since a cell holds at most as many as there are rows folded into one.
    fn holding(lg: u8, seed: u64, rows: &[u64]) -> Result<Self, Error> {
        match has_window(lg, coupons(rows)) {
            true => Ok(Self::with_matrix(lg, seed, rows)),
            false => Self::with_sketch(lg, seed, rows),
        }
    }

    pub fn update(self, sketch: &CpcSketch) -> Result<Self, Error> {
        CpcSketch::inside().union_update(self.0, sketch).map(Self)
    }

    pub fn spoken(&self) -> Vec<u64> {
        let (lg, _, state) = &self.0;
        let rows = match state {
            Ok(sketch) => CpcSketch::inside().build_bit_matrix(sketch),
            Err(matrix) => matrix.clone(),
        };
        [vec![u64::from(*lg)], rows].concat()
    }

    /// The parts, and the first interesting column.
    fn into_parts(self) -> (SpokenParts, u64) {
        let (sketch, _) = CpcSketch::inside().union_to_sketch(self.0);
        let (coupons, offset, column, ..) = CpcSketch::inside().parts_of_sketch(&sketch);
        let Sketch {
            lg, window, pairs, ..
        } = parts(&sketch);
        let parts = Parts {
            coupons: coupons.into(),
            flavor: CpcSketch::inside().determine_flavor(lg, coupons).into(),
            offset: offset.into(),
            window,
            pairs,
        };
        (SpokenParts::Parts(parts), column.into())
    }
}

pub fn new_union(lg: u8, seed: u64) -> Said<Spoken<u64>> {
    listen(|| RustUnion::new(lg, seed).map(|union| union.spoken())).map(spoken)
}

pub fn split(lg: u8, matrix: &[u64]) -> Said<(SpokenParts, u64)> {
    listen(|| {
        let union = match lg {
            4..=26 => RustUnion::holding(lg, SEED, matrix),
            _ => Ok(RustUnion::with_matrix(lg, SEED, matrix)),
        };
        union.expect("the Rust takes this seed").into_parts()
    })
}

/// Of a union that the crate has made.
pub fn to_sketch(union: RustUnion) -> Said<(SpokenParts, u64)> {
    listen(|| union.into_parts())
}

/// Of a lawful union.
pub fn merge(union: &Union, source: &Sketch, seed: u64) -> Said<Spoken<u64>> {
    listen(|| {
        let sketch = sketch(source, seed)?;
        let held = RustUnion::holding(union.present, union.seed, union.present_rows())?;
        held.update(&sketch).map(|union| union.spoken())
    })
    .map(spoken)
}

/// Of unions and sketches that the crate has made.
pub fn update(union: &RustUnion, sketch: &CpcSketch) -> Said<Result<RustUnion, u32>> {
    listen(|| union.clone().update(sketch))
        .map(|said| said.map_err(|error| number_of(error.message())))
}

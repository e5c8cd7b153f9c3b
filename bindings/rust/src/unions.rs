//! Matrices and unions: count, split, expansion, new union, merge.
//!
//! A matrix is k words of 64 columns; its coupons are the set bits. A sketch is its coupons, its list of pairs, and from Hybrid on a window of k
//! bytes, whose first column is the offset. An Empty or Sparse sketch that is read has a window of no bytes.

use crate::Flavor;
use crate::Refused;
use crate::asking::Values;
use crate::asking::ask;
use crate::raw;
use crate::telling::Sketch;
use crate::telling::of_matrix;
use crate::telling::of_numbers;
use crate::telling::of_sketch;

/// What a split says of a matrix.
#[derive(Clone, Copy, PartialEq, Eq, Hash, Debug)]
pub struct Summary {
    /// The set bits.
    pub coupons: u32,
    /// By the coupons.
    pub flavor: Flavor,
    /// The window's first column.
    pub offset: u8,
    /// The first interesting column: the lowest that any surprise has, 64 if there is none.
    pub column: u8,
    /// How many pairs are listed.
    pub pairs: u32,
}

impl Summary {
    fn of_values(values: Values) -> Self {
        Self {
            coupons: values[0] as u32,
            flavor: Flavor::of_number(values[1]),
            offset: values[2] as u8,
            column: values[3] as u8,
            pairs: values[4] as u32,
        }
    }
}

/// A union's record, besides its matrix, which has the configured k's words.
#[derive(Clone, Copy, PartialEq, Eq, Hash, Debug)]
pub struct Union {
    /// The configured lg_k.
    pub lg_k: u8,
    /// The least lg_k of the configured one and of the non-empty sources so far: the matrix's rows from that k on are zero.
    pub present_lg_k: u8,
    /// A source must have the same.
    pub seed: u64,
}

impl Union {
    fn of_values(values: Values) -> Self {
        Self {
            lg_k: values[0] as u8,
            present_lg_k: values[1] as u8,
            seed: values[2],
        }
    }
}

/// A source's record, besides its window and its pairs.
#[derive(Clone, Copy, PartialEq, Eq, Hash, Debug)]
pub struct Source {
    /// Its lg_k.
    pub lg_k: u8,
    /// Its seed.
    pub seed: u64,
    /// Its stated coupons.
    pub coupons: u32,
}

/// The coupons of a matrix. Refuses by 1; 2 if the matrix has not k words; 10 with row 67108863.
pub fn count(lg_k: u8, matrix: &[u64]) -> Result<u32, Refused> {
    ask(of_matrix, |answer| unsafe {
        raw::bridgenook_count(lg_k, matrix.as_ptr(), matrix.len(), answer)
    })
    .map(|values| values[0] as u32)
}

/// Splits a matrix into window and pairs: the sketch that it is.
///
/// Refuses by 1; 2 if the matrix has not k words or the window not k bytes, whatever the flavor; 10 with row 67108863; 5 if `pairs` is shorter than the
/// list. The window is written whole, but stays as it was if the sketch is Empty or Sparse; what follows the list stays. On a refusal both stay as they were.
///
/// ```
/// use bridgenook::{Flavor, unions};
/// let mut matrix = [0; 16];
/// (matrix[0], matrix[1]) = (1 << 5, 1 << 6 | 1 << 9);
/// let (mut window, mut pairs) = ([0; 16], [0; 4]);
/// let summary = unions::split(4, &matrix, &mut window, &mut pairs).unwrap();
/// assert_eq!((summary.coupons, summary.flavor, summary.pairs), (3, Flavor::Hybrid, 1));
/// assert_eq!((window[0], window[1], pairs[0]), (32, 64, 64 + 9));
/// ```
pub fn split(
    lg_k: u8,
    matrix: &[u64],
    window: &mut [u8],
    pairs: &mut [u32],
) -> Result<Summary, Refused> {
    ask(of_matrix, |answer| unsafe {
        raw::bridgenook_split(
            lg_k,
            matrix.as_ptr(),
            matrix.len(),
            window.as_mut_ptr(),
            window.len(),
            pairs.as_mut_ptr(),
            pairs.len(),
            answer,
        )
    })
    .map(Summary::of_values)
}

/// Expands a sketch to its matrix, which is written whole: [`split`] undone.
///
/// Refuses by 1; 17 if the coupons exceed 64k; 2 if the window or the matrix is of wrong length; for the first faulty pair by 8, 11, 10; 14 with the first row
/// that has a window bit past column 63, then with the first pair inside the window's columns; 10 with row 67108863; 17 if the coupons differ
/// from those held. The matrix then stays as it was.
///
/// ```
/// use bridgenook::unions;
/// let mut matrix = [0; 32];
/// unions::expand(5, 2, &[], &[70, 71], &mut matrix).unwrap();
/// assert_eq!(matrix[1], 1 << 6 | 1 << 7);
/// assert_eq!(unions::expand(5, 1, &[], &[70, 71], &mut matrix).unwrap_err().number(), 17);
/// ```
pub fn expand(
    lg_k: u8,
    coupons: u32,
    window: &[u8],
    pairs: &[u32],
    matrix: &mut [u64],
) -> Result<(), Refused> {
    let sketch = Sketch {
        lg_k,
        coupons,
        window,
        pairs,
    };
    ask(of_sketch(sketch), |answer| unsafe {
        raw::bridgenook_expand(
            lg_k,
            coupons,
            window.as_ptr(),
            window.len(),
            pairs.as_ptr(),
            pairs.len(),
            matrix.as_mut_ptr(),
            matrix.len(),
            answer,
        )
    })
    .map(drop)
}

/// A union of nothing; its matrix becomes zeros. Refuses by 1; 2 if the matrix has not k words. It then stays as it was.
pub fn new_union(lg_k: u8, seed: u64, matrix: &mut [u64]) -> Result<Union, Refused> {
    ask(of_numbers, |answer| unsafe {
        raw::bridgenook_new_union(lg_k, seed, matrix.as_mut_ptr(), matrix.len(), answer)
    })
    .map(Union::of_values)
}

/// Merges a source into a union. A non-empty source with a smaller k than the present one first folds the matrix to it; an Empty one changes nothing.
///
/// Refuses by 1, also of the configured lg_k; 17 if the coupons exceed 64k; 2 if window or matrix is of wrong length; 15 if the union is not lawful; then as
/// [`expand`] by 8, 11, 10, 14, 10, 17; 16 if the seeds differ. Record and matrix then stay as they were.
///
/// ```
/// use bridgenook::unions::{self, Source};
/// let mut matrix = [0; 32];
/// let mut union = unions::new_union(5, 9001, &mut matrix).unwrap();
/// let source = Source { lg_k: 5, seed: 9001, coupons: 2 };
/// unions::merge(&mut union, &mut matrix, source, &[], &[70, 71]).unwrap();
/// let smaller = Source { lg_k: 4, seed: 9001, coupons: 1 };
/// unions::merge(&mut union, &mut matrix, smaller, &[], &[3]).unwrap();
/// assert_eq!(union.present_lg_k, 4);
/// assert_eq!(unions::count(4, &matrix[..16]), Ok(3));
/// ```
pub fn merge(
    union: &mut Union,
    matrix: &mut [u64],
    source: Source,
    window: &[u8],
    pairs: &[u32],
) -> Result<(), Refused> {
    let sketch = Sketch {
        lg_k: source.lg_k,
        coupons: source.coupons,
        window,
        pairs,
    };
    let values = ask(of_sketch(sketch), |answer| unsafe {
        raw::bridgenook_merge(
            union.lg_k,
            union.present_lg_k,
            union.seed,
            matrix.as_mut_ptr(),
            matrix.len(),
            source.lg_k,
            source.seed,
            source.coupons,
            window.as_ptr(),
            window.len(),
            pairs.as_ptr(),
            pairs.len(),
            answer,
        )
    })?;
    *union = Union::of_values(values);
    Ok(())
}

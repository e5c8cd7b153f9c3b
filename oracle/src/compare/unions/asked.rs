//! Ours and the plain reading, asked alike: each function gives what both leave. What is lent to be written holds
//! garbage before.

use crate::answer::Lent;
use crate::answer::lend;
use crate::lent_matrices::LentSplit;
use crate::lent_matrices::Sketch;
use crate::lent_matrices::SplitMemory;
use crate::lent_matrices::Union;
use crate::lent_matrices::lend_split;
use crate::ours::unions as ours;
use crate::plain_reading::unions as reading;

/// Around a matrix that is lent.
const AROUND: u64 = 0x5ca1_ab1e_0dd5_eed5;

/// What a matrix, a window and a list hold before they are written.
const BEFORE: (u64, u8, u32) = (0x0bad_cafe_f00d_5eed, 0xb7, 0x0bad_cafe);

type Matrix = Lent<Vec<u64>>;

/// Into a window of so many bytes and a list with so much room.
pub fn split(lg: u8, matrix: &[u64], bytes: usize, room: usize) -> (LentSplit, LentSplit) {
    let memory = SplitMemory {
        window: vec![BEFORE.1; bytes],
        pairs: vec![BEFORE.2; room],
    };
    let ours = lend_split(&memory, |window, pairs| {
        ours::split(lg, matrix, window, pairs)
    });
    (ours, reading::split(lg, matrix, &memory))
}

/// Into a matrix of so many words.
pub fn expand(sketch: &Sketch, length: usize) -> (Matrix, Matrix) {
    let matrix = vec![BEFORE.0; length];
    let ours = lend(&matrix, AROUND, |matrix| ours::expand(sketch, matrix));
    (ours, reading::expand(sketch, &matrix))
}

/// In a matrix of so many words.
pub fn new_union(lg: u8, seed: u64, length: usize) -> (Matrix, Matrix) {
    let matrix = vec![BEFORE.0; length];
    let ours = lend(&matrix, AROUND, |matrix| ours::new_union(lg, seed, matrix));
    (ours, reading::new_union(lg, seed, &matrix))
}

/// In a copy of the union's matrix.
pub fn merge(union: &Union, source: &Sketch, seed: u64) -> (Matrix, Matrix) {
    let record = (union.lg, union.present, union.seed);
    let ours = lend(&union.matrix, AROUND, |matrix| {
        ours::merge(record, matrix, source, seed)
    });
    (ours, reading::merge(union, source, seed))
}

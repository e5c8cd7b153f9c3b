//! The comparisons, one subject a file.

pub mod book_calls;
pub mod bounds;
pub mod numbers;
pub mod practice;
pub mod stand_in;
pub mod streams;
pub mod tables;
pub mod thresholds;
pub mod unions;

/// The right lengths of every lent book, book set and table, and lengths beside them.
const LENGTHS: [usize; 14] = [
    0, 1, 64, 65, 66, 255, 256, 257, 4095, 4096, 4097, 5631, 5632, 5633,
];

//! A plain reading of document 01: each rule said once more in Rust, as it stands on the page, with
//! no thought of speed. What the Rust as given has no call for is compared with this alone; and where
//! ours differs from the Rust by intent, this says what ours must answer.

pub mod bits;
pub mod books;
pub mod numbers;
pub mod pair_lists;
pub mod practice;
pub mod streams;
pub mod tables;
pub mod unions;

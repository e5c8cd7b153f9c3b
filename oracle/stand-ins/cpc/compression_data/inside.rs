//! The oracle's way to what the crate keeps private. It is no part of the crate.
//!
//! As a descendant of `cpc` this module sees what is private there. A program cannot name it, since
//! `mod.rs` declares `compression_data` without `pub`, and the given files stay unchanged. But the
//! methods of a public type are public wherever in the crate they stand: so `CpcSketch`, which is
//! public, gets one function more, and that hands out everything else.

mod tables;
mod unions;

use super::Coded;
use super::install;
use crate::codec::SketchBytes;
use crate::cpc::CpcSketch;
use crate::cpc::compression;
use crate::cpc::count_bits_set_in_matrix;
use crate::cpc::determine_correct_offset;
use crate::cpc::determine_flavor;
use crate::error::Error;

/// `compression.rs` a second time, with functions of ours inside it for what is private to the file.
#[allow(dead_code)]
mod compression_again {
    include!("../compression.rs");

    /// As `encode_pairs` and `decode_pairs` call it: the same sum, in the same type.
    pub fn number_of_base_bits(lg_k: u8, num_pairs: u32) -> u8 {
        golomb_choose_number_of_base_bits((1 << lg_k) + num_pairs, u64::from(num_pairs))
    }
}

impl CpcSketch {
    /// Hands out the crate's private parts, for the oracle alone.
    pub fn inside() -> Inside {
        Inside
    }
}

/// The crate's private parts under their own names, with plain numbers and lists as answers.
pub struct Inside;

impl Inside {
    /// 0 Empty, 1 Sparse, 2 Hybrid, 3 Pinned, 4 Sliding.
    pub fn determine_flavor(&self, lg_k: u8, num_coupons: u32) -> u8 {
        determine_flavor(lg_k, num_coupons) as u8
    }

    pub fn determine_correct_offset(&self, lg_k: u8, num_coupons: u32) -> u8 {
        determine_correct_offset(lg_k, num_coupons)
    }

    pub fn determine_pseudo_phase(&self, lg_k: u8, num_coupons: u32) -> u8 {
        compression::determine_pseudo_phase(lg_k, num_coupons)
    }

    pub fn number_of_base_bits(&self, lg_k: u8, num_pairs: u32) -> u8 {
        compression_again::number_of_base_bits(lg_k, num_pairs)
    }

    pub fn count_bits_set_in_matrix(&self, matrix: &[u64]) -> u32 {
        count_bits_set_in_matrix(matrix)
    }

    /// Installs the pair book and the window books of phases 0 to 21, each with its decoding table.
    pub fn install(&self, pairs: Coded, windows: Vec<Coded>) {
        install(pairs, windows);
    }

    pub fn encode_pairs(&self, pairs: &[u32], lg_k: u8) -> Vec<u8> {
        written(|output| compression::encode_pairs(pairs, lg_k, output))
    }

    pub fn decode_pairs(&self, data: &[u8], num_pairs: u32, lg_k: u8) -> Result<Vec<u32>, Error> {
        compression::decode_pairs(data, num_pairs, lg_k)
    }

    pub fn encode_window(&self, window: &[u8], lg_k: u8, num_coupons: u32) -> Vec<u8> {
        written(|output| compression::encode_window(window, lg_k, num_coupons, output))
    }

    pub fn decode_window(&self, data: &[u8], lg_k: u8, coupons: u32) -> Result<Vec<u8>, Error> {
        compression::decode_window(data, lg_k, coupons)
    }
}

/// The bytes that an encoder of the crate appends.
fn written(encoder: impl FnOnce(&mut SketchBytes) -> usize) -> Vec<u8> {
    let mut output = SketchBytes::with_capacity(0);
    encoder(&mut output);
    output.into_bytes()
}

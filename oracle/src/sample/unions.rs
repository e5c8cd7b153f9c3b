//! Matrices and unions: sketches of every flavor that the crate grows, counted, expanded, split, and merged one after
//! the other into unions of the same k, of a larger and of a smaller one.

use std::fmt::Display;
use std::fmt::Write;

use datasketches::cpc::CpcSketch;

use super::BEFORE;
use super::before_and_after;
use crate::growing::SEED;
use crate::growing::grown;
use crate::lent_matrices::Sketch;
use crate::lent_matrices::SpokenParts;
use crate::lent_matrices::Union;
use crate::listed::Listed;
use crate::plain_reading::unions::Split;
use crate::random::Random;
use crate::rust::Said;
use crate::rust::unions as rust;
use crate::rust::unions::RustUnion;

/// So many items for each 16 rows make a sketch Empty, Sparse, Hybrid, Pinned, and Sliding at a low and a high offset.
const ITEMS: [u64; 6] = [0, 1, 5, 30, 150, 4000];

pub fn write(text: &mut String) {
    let mut random = Random::new(15);
    for lg in [4, 5] {
        for items in ITEMS {
            write_sketch(text, &grown(lg, (items << lg) >> 4, &mut random));
        }
    }
    for (lg, sources) in [(4, [4, 5, 4]), (5, [5, 6, 5]), (6, [6, 5, 4])] {
        write_union(text, lg, sources, &mut random);
    }
}

fn whole<T: Copy + PartialEq + Display>(list: &[T]) -> String {
    Listed::of(list).whole()
}

fn write_sketch(text: &mut String, made: &CpcSketch) {
    let Sketch {
        lg,
        coupons,
        window,
        pairs,
    } = rust::parts(made);
    let matrix = rust::build_bit_matrix(made).items();
    writeln!(text, "count {lg} {} = 0 0 0 {coupons}", whole(&matrix)).unwrap();
    writeln!(
        text,
        "expand {lg} {coupons} {} {} {BEFORE}x{} = 0 0 0 ; {}",
        whole(&window),
        whole(&pairs),
        matrix.len(),
        whole(&matrix)
    )
    .unwrap();
    write_split(text, lg, &matrix);
}

/// The first interesting column is document 01's, since the Rust caps it.
fn write_split(text: &mut String, lg: u8, matrix: &[u64]) {
    let Said::Value((SpokenParts::Parts(parts), _)) = rust::split(lg, matrix) else {
        panic!("the Rust does not split what it has made");
    };
    let (before, after) = before_and_after(&parts.pairs);
    let lent = [BEFORE].repeat(matrix.len());
    let window = match parts.window.is_empty() {
        true => &lent,
        false => &parts.window,
    };
    writeln!(
        text,
        "split {lg} {} {} {before} = 0 0 0 {} {} {} {} {} ; {} ; {after}",
        whole(matrix),
        whole(&lent),
        parts.coupons,
        parts.flavor,
        parts.offset,
        Split::of(lg, matrix).column,
        parts.pairs.len(),
        whole(window)
    )
    .unwrap();
}

/// A union that takes in sketches of every flavor at each of the given lg_k, few coupons first.
fn write_union(text: &mut String, lg: u8, sources: [u8; 3], random: &mut Random) {
    let k = 1 << lg;
    writeln!(
        text,
        "new_union {lg} {SEED} {BEFORE}x{k} = 0 0 0 {lg} {lg} {SEED} ; 0x{k}"
    )
    .unwrap();
    let mut union = RustUnion::new(lg, SEED).expect("the Rust takes this seed");
    let mut lent = Union::empty(lg, SEED);
    for items in ITEMS {
        for from in sources {
            let source = grown(from, (items << from) >> 4, random);
            union = updated(&union, &source);
            lent = write_merge(text, &lent, &source, &union);
        }
    }
}

fn updated(union: &RustUnion, source: &CpcSketch) -> RustUnion {
    match rust::update(union, source) {
        Said::Value(Ok(union)) => union,
        _ => panic!("the Rust does not merge what it has made"),
    }
}

/// The rows from the present k on are document 01's, since the Rust has none.
fn write_merge(text: &mut String, before: &Union, source: &CpcSketch, after: &RustUnion) -> Union {
    let spoken = after.spoken();
    let mut matrix = spoken[1..].to_vec();
    matrix.resize(before.matrix.len(), 0);
    let after = Union {
        present: spoken[0] as u8,
        matrix,
        ..*before
    };
    let parts = rust::parts(source);
    writeln!(
        text,
        "merge {} {} {SEED} {} {} {SEED} {} {} {} = 0 0 0 {} {} {SEED} ; {}",
        before.lg,
        before.present,
        whole(&before.matrix),
        parts.lg,
        parts.coupons,
        whole(&parts.window),
        whole(&parts.pairs),
        after.lg,
        after.present,
        whole(&after.matrix)
    )
    .unwrap();
    after
}

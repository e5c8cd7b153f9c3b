//! How long matrices take to be counted, split and expanded, and sketches to be merged, beside the Rust, in one
//! process and on the same sketches.

use std::hint::black_box;

use datasketches::cpc::CpcSketch;

use crate::growing::SEED;
use crate::growing::grown;
use crate::lent_matrices::Sketch;
use crate::ours::unions as ours;
use crate::random::Random;
use crate::ratios::Ratios;
use crate::ratios::Row;
use crate::ratios::share;
use crate::rust::unions::parts;
use crate::timing::Runs;

const LGS: [u8; 4] = [10, 12, 16, 20];

/// A flavor with its number, and the items that a sketch of it is grown from: so many for each 256 rows.
const FLAVORS: [(&str, u8, u64); 4] = [
    ("Sparse", 1, 20),
    ("Hybrid", 2, 80),
    ("Pinned", 3, 512),
    ("Sliding", 4, 4096),
];

/// A sketch on both sides, and the matrix that it stands for.
struct Tried {
    name: String,
    sketch: Sketch,
    made: CpcSketch,
    matrix: Vec<u64>,
}

/// The least ratio that is asked of a call; the others are splits.
fn bar(call: &str) -> f64 {
    match call {
        "merge" | "expand" => 1.0,
        _ => 1.5,
    }
}

pub fn measure(ratios: &mut Ratios) {
    let mut random = Random::new(3);
    for lg in LGS {
        let mut print_row = |call: &str, name: &str, times: (f64, f64), judging: Option<f64>| {
            let row = Row::beside(format!("{call}, {name}"), format!("lg_k {lg}"), times);
            let note = judging.map(|judging| format!("judging: {}", share(judging, times.0)));
            ratios.add(row.bar(bar(call)).note(note.unwrap_or_default()));
        };
        for (flavor, number, items) in FLAVORS {
            let tried = Tried::new(lg, flavor, (items << lg) >> 8, &mut random);
            let is = CpcSketch::inside().determine_flavor(lg, tried.sketch.coupons);
            assert!(is == number, "{} is of flavor {is}", tried.name);
            let (times, judging) = (tried.time_merge(), tried.time_judging());
            print_row("merge", &tried.name, times, Some(judging));
            print_row("expand", &tried.name, tried.time_expand(), None);
            // The Rust's union has no matrix while its coupons are Sparse, and copies its sketch.
            if flavor != "Sparse" {
                let (most, least) = tried.split_rooms();
                print_row("split", &tried.name, tried.time_split(most), None);
                let just_enough = tried.time_split(least);
                print_row("split, room just enough", &tried.name, just_enough, None);
            }
        }
    }
    for lg in [12, 16, 20, 24] {
        let matrix: Vec<u64> = (0..1u64 << lg).map(|_| random.number()).collect();
        let row = Row::beside("count", format!("lg_k {lg}"), time_count(lg, &matrix));
        let sum = time_sum(lg, &matrix);
        ratios.add(row.note(format!("a plain sum of the words: {sum:.2} µs")));
    }
}

/// The shorter a call, the more of them are one run.
fn runs(lg: u8) -> Runs {
    match lg {
        0..=12 => Runs {
            runs: 101,
            calls: 20,
        },
        13..=16 => Runs { runs: 51, calls: 1 },
        _ => Runs { runs: 9, calls: 1 },
    }
}

fn time_count(lg: u8, matrix: &[u64]) -> (f64, f64) {
    let ours = || assert!(ours::count(lg, black_box(matrix)).number == 0);
    let rust = || {
        black_box(CpcSketch::inside().count_bits_set_in_matrix(black_box(matrix)));
    };
    runs(lg).medians(ours, rust)
}

/// A sum of the words as the Rust compiles it: the pace of this machine's memory, or of its caches.
fn time_sum(lg: u8, matrix: &[u64]) -> f64 {
    runs(lg).median(|| {
        let words = black_box(matrix).iter();
        black_box(words.fold(0u64, |sum, &word| sum.wrapping_add(word)));
    })
}

impl Tried {
    fn new(lg: u8, flavor: &str, items: u64, random: &mut Random) -> Self {
        let made = grown(lg, items, random);
        Self {
            name: flavor.to_string(),
            sketch: parts(&made),
            matrix: CpcSketch::inside().build_bit_matrix(&made),
            made,
        }
    }

    /// Into a union that holds these coupons already, so that every call does the same.
    fn time_merge(&self) -> (f64, f64) {
        let (lg, inside) = (self.sketch.lg, CpcSketch::inside());
        let mut matrix = self.matrix.clone();
        let ours = || {
            let record = (lg, lg, SEED);
            let merged = ours::merge(record, &mut matrix, black_box(&self.sketch), SEED);
            assert!(merged.number == 0);
        };
        let mut union = Some((lg, SEED, Err(self.matrix.clone())));
        let rust = || {
            let before = union.take().expect("it is put back");
            union = inside.union_update(before, black_box(&self.made)).ok();
        };
        runs(lg).medians(ours, rust)
    }

    /// Everything that a merge judges, refused by the seed at the end.
    fn time_judging(&self) -> f64 {
        let lg = self.sketch.lg;
        let mut matrix = self.matrix.clone();
        runs(lg).median(|| {
            let record = (lg, lg, SEED);
            let refused = ours::merge(record, &mut matrix, black_box(&self.sketch), SEED + 1);
            assert!(refused.number == 16);
        })
    }

    fn time_expand(&self) -> (f64, f64) {
        let mut matrix = self.matrix.clone();
        let ours = || assert!(ours::expand(black_box(&self.sketch), &mut matrix).number == 0);
        let rust = || {
            black_box(CpcSketch::inside().build_bit_matrix(black_box(&self.made)));
        };
        runs(self.sketch.lg).medians(ours, rust)
    }

    /// Room for the coupons and the cells below the offset, which no split needs more than, and for just the pairs.
    fn split_rooms(&self) -> (usize, usize) {
        let (lg, coupons) = (self.sketch.lg, self.sketch.coupons);
        let offset = CpcSketch::inside().determine_correct_offset(lg, coupons);
        let cells = usize::from(offset) << lg;
        (coupons as usize + cells, self.sketch.pairs.len())
    }

    /// The Rust's union keeps its matrix, and is handed over and back.
    fn time_split(&self, room: usize) -> (f64, f64) {
        let (lg, inside) = (self.sketch.lg, CpcSketch::inside());
        let mut window = vec![0; 1 << lg];
        let mut pairs = vec![0; room];
        let ours = || {
            let split = ours::split(lg, black_box(&self.matrix), &mut window, &mut pairs);
            assert!(split.number == 0);
        };
        let mut union = Some((lg, SEED, Err(self.matrix.clone())));
        let rust = || {
            let before = union.take().expect("it is put back");
            let (sketch, after) = inside.union_to_sketch(black_box(before));
            black_box(sketch);
            union = Some(after);
        };
        runs(lg).medians(ours, rust)
    }
}

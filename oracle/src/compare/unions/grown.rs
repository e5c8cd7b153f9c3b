//! Sketches that the crate grows itself, and unions of several of them, which the Rust keeps as its own.

use datasketches::cpc::CpcSketch;

use super::Effort;
use super::calls::Calls;
use crate::answer::Spoken;
use crate::cases::Kind;
use crate::growing::SEED;
use crate::growing::grown;
use crate::lent_matrices::Union;
use crate::random::Random;
use crate::rust;
use crate::rust::Said;
use crate::rust::unions::RustUnion;

pub fn judge(calls: &mut Calls, effort: &Effort) {
    let mut random = Random::new(23);
    for lg in 4..=effort.most_grown {
        let sketches = growth(lg, &mut random);
        for sketch in &sketches {
            calls.judge_made(sketch, Kind::Random);
        }
        if lg <= 8 {
            judge_union(calls, lg, &sketches);
        }
    }
    for _ in 0..effort.unions {
        let lg = 4 + random.below(u64::from(effort.most_grown) - 3) as u8;
        let mut sources = sources(lg, effort.most_grown, &mut random);
        for _ in 0..3 {
            judge_union(calls, lg, &sources);
            random.shuffle(&mut sources);
        }
    }
}

/// One sketch as it grows through all flavors, to an offset of 8 or so.
fn growth(lg: u8, random: &mut Random) -> Vec<CpcSketch> {
    let mut sketch = grown(lg, 0, random);
    let mut seen = vec![sketch.clone()];
    let (mut items, mut next) = (0u64, 1);
    while items < 600 << lg {
        sketch.update(random.number());
        items += 1;
        if items == next {
            seen.push(sketch.clone());
            next = next * 5 / 4 + 1;
        }
    }
    seen
}

/// A sketch of so many coupons that may lie in any column, taken in one by one.
fn filled(lg: u8, coupons: u64, random: &mut Random) -> CpcSketch {
    let mut sketch = grown(lg, 0, random);
    for _ in 0..coupons {
        let pair = random.below(64 << lg) as u32;
        CpcSketch::inside().row_col_update(&mut sketch, pair);
    }
    sketch
}

/// Two to six sketches of any flavors, at this lg_k and at others.
fn sources(lg: u8, most: u8, random: &mut Random) -> Vec<CpcSketch> {
    let source = |random: &mut Random| {
        let lg = match random.below(3) {
            0 => lg,
            _ => 4 + random.below(u64::from(most) - 3) as u8,
        };
        match random.below(8) {
            0 => grown(lg, 0, random),
            1 => filled(lg, random.below(8 << lg), random),
            // From Sparse to Sliding, each about as often.
            _ => grown(lg, (64 << lg) >> random.below(u64::from(lg) + 6), random),
        }
    };
    (0..2 + random.below(5)).map(|_| source(random)).collect()
}

/// A union of these sketches in this order, on both sides.
fn judge_union(calls: &mut Calls, lg: u8, sketches: &[CpcSketch]) {
    let mut ours = Union::empty(lg, SEED);
    let mut theirs = RustUnion::new(lg, SEED).expect("the Rust takes this seed");
    for sketch in sketches {
        let source = rust::unions::parts(sketch);
        let updated = rust::unions::update(&theirs, sketch);
        let said = updated.map(|union| {
            theirs = union.expect("the seeds are the same");
            Spoken::Items(theirs.spoken())
        });
        let is_panic = matches!(said, Said::Panic);
        ours = calls.judge_merge_as(&ours, &source, SEED, said, Kind::Random);
        if is_panic {
            return;
        }
    }
    let rows = ours.present_rows();
    calls.judge_split_of(ours.present, rows, theirs, Kind::Random);
}

//! Matrices with so many coupons, the sketches that they are split into, and damaged copies of these.

use crate::lent_matrices::Sketch;
use crate::plain_reading::unions as reading;
use crate::random::Random;

/// So many coupons, lower columns first, but for a disorder of so many columns: 1 has none, and with 64 they
/// lie anywhere.
pub fn matrix(lg: u8, coupons: u64, disorder: u64, random: &mut Random) -> Vec<u64> {
    let mut cells: Vec<(u64, u64, u32)> = (0..64u32 << lg)
        .map(|cell| {
            let column = u64::from(cell % 64);
            (column + random.below(disorder), random.number(), cell)
        })
        .collect();
    let taken = coupons as usize;
    if taken < cells.len() {
        cells.select_nth_unstable(taken);
    }
    let mut matrix = vec![0; 1 << lg];
    for &(_, _, cell) in &cells[..taken] {
        matrix[cell as usize / 64] |= 1 << (cell % 64);
    }
    matrix
}

pub fn sketch(lg: u8, matrix: &[u64]) -> Sketch {
    let split = reading::Split::of(lg, matrix);
    Sketch {
        lg,
        coupons: split.coupons as u32,
        window: split.window,
        pairs: split.pairs,
    }
}

/// The numbers of coupons at which flavor and offset change, with those beside them.
pub fn thresholds(lg: u8) -> Vec<u64> {
    let k = 1u64 << lg;
    let offsets = [0, 1, 2, 7, 8, 9, 31, 47, 48, 54, 55, 56, 57, 58, 60];
    let changes = [0, 3 * k / 32, k / 2, 27 * k / 8, 64 * k]
        .into_iter()
        .chain(offsets.map(|offset| 19 * k / 8 + offset * k));
    let mut around: Vec<u64> = changes
        .flat_map(|change| [change.saturating_sub(1), change, change + 1])
        .filter(|&coupons| coupons <= 64 * k)
        .collect();
    around.sort_unstable();
    around.dedup();
    around
}

/// Copies of a sketch with one part changed; some stay lawful by luck.
pub fn damaged(sketch: &Sketch, random: &mut Random) -> Vec<Sketch> {
    let mut copies = with_other_numbers(sketch);
    copies.extend(with_other_windows(sketch, random));
    copies.extend(with_other_pairs(sketch, random));
    copies
}

fn with_other_numbers(sketch: &Sketch) -> Vec<Sketch> {
    let Sketch { lg, coupons, .. } = *sketch;
    let numbers = [
        (lg, coupons + 1),
        (lg, coupons.wrapping_sub(1)),
        (lg, 0),
        (lg, 64 << lg),
        (lg, (64 << lg) + 1),
        (lg, u32::MAX),
        (lg + 1, coupons),
        (lg - 1, coupons),
        (3, coupons),
        (27, coupons),
        (u8::MAX, coupons),
    ];
    let change = |(lg, coupons)| Sketch {
        lg,
        coupons,
        ..sketch.clone()
    };
    numbers.map(change).to_vec()
}

/// One byte more or less, none, k where there were none; a bit more or less, the top bit of a byte, all of them.
fn with_other_windows(sketch: &Sketch, random: &mut Random) -> Vec<Sketch> {
    let window = &sketch.window;
    let mut windows = vec![
        [&window[..], &[0]].concat(),
        [&window[..], &[7]].concat(),
        window[..window.len().saturating_sub(1)].to_vec(),
        vec![],
        vec![0; 1 << sketch.lg],
        vec![255; 1 << sketch.lg],
    ];
    if !window.is_empty() {
        for mask in [1 << random.below(8), 128, 255] {
            let mut changed = window.clone();
            changed[random.below(window.len() as u64) as usize] ^= mask;
            windows.push(changed);
        }
    }
    let change = |window| Sketch {
        window,
        ..sketch.clone()
    };
    windows.into_iter().map(change).collect()
}

/// One left out, doubled, swapped with the next, moved by a column or a row, moved out of the rows; any one added in its place
/// or at the end; the reserved number at the end.
fn with_other_pairs(sketch: &Sketch, random: &mut Random) -> Vec<Sketch> {
    let cells = 64u32 << sketch.lg;
    let any = random.below(cells.into()) as u32;
    let ends = [any, cells - 1, cells, cells + any, u32::MAX];
    let mut lists: Vec<Vec<u32>> = ends
        .map(|end| [&sketch.pairs[..], &[end]].concat())
        .to_vec();
    let mut sorted = lists[0].clone();
    sorted.sort_unstable();
    sorted.dedup();
    lists.push(sorted);
    if !sketch.pairs.is_empty() {
        let place = random.below(sketch.pairs.len() as u64) as usize;
        let pair = sketch.pairs[place];
        let mut shortened = sketch.pairs.clone();
        shortened.remove(place);
        lists.push(shortened);
        for other in [pair ^ 1, pair ^ 64, pair ^ 8, pair.wrapping_add(cells), any] {
            let mut changed = sketch.pairs.clone();
            changed[place] = other;
            lists.push(changed);
        }
        let mut doubled = sketch.pairs.clone();
        doubled.insert(place, pair);
        lists.push(doubled);
        let mut swapped = sketch.pairs.clone();
        swapped.swap(place, (place + 1) % sketch.pairs.len());
        lists.push(swapped);
    }
    let change = |pairs| Sketch {
        pairs,
        ..sketch.clone()
    };
    lists.into_iter().map(change).collect()
}

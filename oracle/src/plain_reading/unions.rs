//! Matrices and unions: count, split, expansion, new union and merge, cell by cell.

use super::numbers;
use super::numbers::lawful_rows;
use super::pair_lists;
use super::streams::refuse_if;
use crate::answer::Answer;
use crate::answer::Lent;
use crate::lent_matrices::LentSplit;
use crate::lent_matrices::Sketch;
use crate::lent_matrices::SplitMemory;
use crate::lent_matrices::Union;

/// The row of the reserved number, whose column is 63.
const LAST_ROW: u64 = 67_108_863;

pub fn has(matrix: &[u64], row: u64, column: u64) -> bool {
    matrix[row as usize] >> column & 1 == 1
}

/// The word of the columns that pass a test.
fn word_of(test: impl Fn(u64) -> bool) -> u64 {
    let bit = |column| u64::from(test(column)) << column;
    (0..64).map(bit).sum()
}

/// The matrix of k rows that holds just the cells that pass a test.
fn matrix_of(k: u64, test: impl Fn(u64, u64) -> bool) -> Vec<u64> {
    (0..k)
        .map(|row| word_of(|column| test(row, column)))
        .collect()
}

/// Coupons are the set bits of all its words.
pub fn coupons(matrix: &[u64]) -> u64 {
    matrix.iter().map(|word| u64::from(word.count_ones())).sum()
}

fn holds_reserved(lg: u8, matrix: &[u64]) -> bool {
    lg == 26 && has(matrix, LAST_ROW, 63)
}

/// The reserved number's bit.
fn refuse_reserved(holds: bool) -> Result<(), Answer> {
    match holds {
        true => Err(Answer::refused_at(10, LAST_ROW)),
        false => Ok(()),
    }
}

fn is_of_rows(length: usize, k: u64) -> bool {
    length as u64 == k
}

/// Of a lawful lg_k, and of up to 64k coupons.
pub fn flavor_of(lg: u8, coupons: u64) -> u64 {
    numbers::flavor(lg, coupons as u32).values[0]
}

pub fn offset_of(lg: u8, coupons: u64) -> u64 {
    numbers::offset(lg, coupons as u32).values[0]
}

/// Empty and Sparse have no window.
pub fn has_window(lg: u8, coupons: u64) -> bool {
    flavor_of(lg, coupons) >= 2
}

/// The eight columns from the offset on.
pub fn in_window(offset: u64, column: u64) -> bool {
    offset <= column && column < offset + 8
}

fn judged_matrix(lg: u8, matrix: &[u64]) -> Result<u64, Answer> {
    let k = lawful_rows(lg)?;
    refuse_if(!is_of_rows(matrix.len(), k), 2)?;
    Ok(k)
}

/// Count: 1, 2, 10.
pub fn count(lg: u8, matrix: &[u64]) -> Answer {
    let counted = judged_matrix(lg, matrix)
        .and_then(|_| refuse_reserved(holds_reserved(lg, matrix)))
        .map(|()| Answer::accepted(&[coupons(matrix)]));
    counted.unwrap_or_else(|refused| refused)
}

/// The surprise words of a matrix with so many coupons.
fn surprise_words(lg: u8, matrix: &[u64]) -> Vec<u64> {
    let coupons = coupons(matrix);
    if !has_window(lg, coupons) {
        return matrix.to_vec();
    }
    let offset = offset_of(lg, coupons);
    matrix_of(1 << lg, |row, column| {
        let is_flipped = column < offset;
        !in_window(offset, column) && has(matrix, row, column) != is_flipped
    })
}

fn pairs_of(words: &[u64]) -> Vec<u32> {
    let cells = 0..64 * words.len() as u64;
    let holds = |cell: &u64| has(words, cell / 64, cell % 64);
    cells.filter(holds).map(|cell| cell as u32).collect()
}

/// What a split of a matrix of k words says and writes.
pub struct Split {
    pub coupons: u64,
    pub flavor: u64,
    pub offset: u64,
    pub column: u64,
    pub window: Vec<u8>,
    pub pairs: Vec<u32>,
}

impl Split {
    pub fn of(lg: u8, matrix: &[u64]) -> Self {
        let coupons = coupons(matrix);
        let offset = offset_of(lg, coupons);
        let words = surprise_words(lg, matrix);
        let byte = |word: &u64| (word >> offset & 255) as u8;
        let ored = words.iter().fold(0, |ored, word| ored | word);
        Self {
            coupons,
            flavor: flavor_of(lg, coupons),
            offset,
            column: u64::from(ored.trailing_zeros()),
            window: match has_window(lg, coupons) {
                true => matrix.iter().map(byte).collect(),
                false => vec![],
            },
            pairs: pairs_of(&words),
        }
    }
}

/// Split: 1, 2, 10, 5.
fn judged_split(lg: u8, matrix: &[u64], window: usize, room: usize) -> Result<Split, Answer> {
    let k = judged_matrix(lg, matrix)?;
    refuse_if(!is_of_rows(window, k), 2)?;
    refuse_reserved(holds_reserved(lg, matrix))?;
    let split = Split::of(lg, matrix);
    refuse_if(room < split.pairs.len(), 5)?;
    Ok(split)
}

pub fn split(lg: u8, matrix: &[u64], memory: &SplitMemory) -> LentSplit {
    let mut left = memory.clone();
    let answer = match judged_split(lg, matrix, left.window.len(), left.pairs.len()) {
        Err(refused) => refused,
        Ok(split) => {
            left.window[..split.window.len()].copy_from_slice(&split.window);
            left.pairs[..split.pairs.len()].copy_from_slice(&split.pairs);
            let listed = split.pairs.len() as u64;
            let Split {
                coupons,
                flavor,
                offset,
                column,
                ..
            } = split;
            Answer::accepted(&[coupons, flavor, offset, column, listed])
        }
    };
    Lent::expected(answer, left)
}

/// The cells that a sketch stands for, whose lengths and pairs are lawful.
struct Held<'a> {
    sketch: &'a Sketch,
    has_window: bool,
    offset: u64,
    listed: Vec<u64>,
}

impl<'a> Held<'a> {
    fn by(sketch: &'a Sketch) -> Self {
        let mut listed = vec![0; 1 << sketch.lg];
        for &pair in &sketch.pairs {
            listed[pair_lists::row(pair) as usize] |= 1 << pair_lists::column(pair);
        }
        Self {
            sketch,
            has_window: has_window(sketch.lg, sketch.coupons.into()),
            offset: offset_of(sketch.lg, sketch.coupons.into()),
            listed,
        }
    }

    /// The window's columns by the window, the others by the list, flipped below the offset.
    fn holds(&self, row: u64, column: u64) -> bool {
        let is_listed = has(&self.listed, row, column);
        if self.has_window && in_window(self.offset, column) {
            self.sketch.window[row as usize] >> (column - self.offset) & 1 == 1
        } else {
            is_listed != (self.has_window && column < self.offset)
        }
    }

    fn matrix(&self) -> Vec<u64> {
        matrix_of(1 << self.sketch.lg, |row, column| self.holds(row, column))
    }
}

/// The first row with a window bit past column 63.
pub fn row_past_columns(sketch: &Sketch) -> Option<usize> {
    let offset = offset_of(sketch.lg, sketch.coupons.into());
    let is_past = |byte: &u8| (0..8).any(|bit| offset + bit > 63 && byte >> bit & 1 == 1);
    sketch.window.iter().position(is_past)
}

/// The first listed pair inside the window's columns.
pub fn pair_inside_window(sketch: &Sketch) -> Option<usize> {
    let offset = offset_of(sketch.lg, sketch.coupons.into());
    let is_inside = |&pair: &u32| in_window(offset, pair_lists::column(pair));
    sketch.pairs.iter().position(is_inside)
}

/// 14: window, then pairs. Empty and Sparse never give it.
fn judged_places(sketch: &Sketch) -> Result<(), Answer> {
    if !has_window(sketch.lg, sketch.coupons.into()) {
        return Ok(());
    }
    match row_past_columns(sketch).or_else(|| pair_inside_window(sketch)) {
        Some(place) => Err(Answer::refused_at(14, place as u64)),
        None => Ok(()),
    }
}

/// First faulty pair (8, 11, 10), 14 (window, then pairs), 10, 17. The matrix that the sketch stands for.
fn judged_source(sketch: &Sketch) -> Result<Vec<u64>, Answer> {
    pair_lists::judged(1 << sketch.lg, &sketch.pairs)?;
    judged_places(sketch)?;
    let held = Held::by(sketch);
    refuse_reserved(sketch.lg == 26 && held.holds(LAST_ROW, 63))?;
    let matrix = held.matrix();
    refuse_if(coupons(&matrix) != sketch.coupons.into(), 17)?;
    Ok(matrix)
}

/// None if Empty or Sparse.
fn is_wrong_window(sketch: &Sketch) -> bool {
    let bytes = match has_window(sketch.lg, sketch.coupons.into()) {
        true => 1 << sketch.lg,
        false => 0,
    };
    sketch.window.len() != bytes
}

/// Expansion: 1, 17 if over 64k, 2, then the source.
fn judged_expansion(sketch: &Sketch, length: usize) -> Result<Vec<u64>, Answer> {
    let k = lawful_rows(sketch.lg)?;
    refuse_if(u64::from(sketch.coupons) > 64 * k, 17)?;
    refuse_if(!is_of_rows(length, k) || is_wrong_window(sketch), 2)?;
    judged_source(sketch)
}

/// The answers of a split, an expansion and a merge that are refused, without what they leave.
pub fn split_answer(lg: u8, matrix: &[u64], window: usize, room: usize) -> Answer {
    refusal(judged_split(lg, matrix, window, room))
}

pub fn expand_answer(sketch: &Sketch, length: usize) -> Answer {
    refusal(judged_expansion(sketch, length))
}

pub fn merge_answer(union: &Union, source: &Sketch, seed: u64) -> Answer {
    refusal(judged_merge(union, source, seed))
}

fn refusal<T>(judged: Result<T, Answer>) -> Answer {
    judged.err().expect("only refusals are asked for")
}

pub fn expand(sketch: &Sketch, matrix: &[u64]) -> Lent<Vec<u64>> {
    match judged_expansion(sketch, matrix.len()) {
        Err(refused) => Lent::expected(refused, matrix.to_vec()),
        Ok(expanded) => Lent::expected(Answer::accepted(&[]), expanded),
    }
}

fn record(lg: u8, present: u8, seed: u64) -> Answer {
    Answer::accepted(&[lg.into(), present.into(), seed])
}

/// New union (matrix zeroed): 1, 2.
pub fn new_union(lg: u8, seed: u64, matrix: &[u64]) -> Lent<Vec<u64>> {
    match judged_matrix(lg, matrix) {
        Err(refused) => Lent::expected(refused, matrix.to_vec()),
        Ok(_) => Lent::expected(record(lg, lg, seed), vec![0; matrix.len()]),
    }
}

/// Present lg_k from 4 to the configured one, rows from k on zero, reserved bit clear.
fn is_lawful(union: &Union) -> bool {
    (4..=union.lg).contains(&union.present)
        && union.matrix[1 << union.present..]
            .iter()
            .all(|&word| word == 0)
        && !holds_reserved(union.lg, &union.matrix)
}

/// Merge: 1, 17 if over 64k, 2, 15, the source, 16. The matrix that the source stands for.
fn judged_merge(union: &Union, source: &Sketch, seed: u64) -> Result<Vec<u64>, Answer> {
    let from = lawful_rows(source.lg)?;
    let k = lawful_rows(union.lg)?;
    refuse_if(u64::from(source.coupons) > 64 * from, 17)?;
    refuse_if(
        !is_of_rows(union.matrix.len(), k) || is_wrong_window(source),
        2,
    )?;
    refuse_if(!is_lawful(union), 15)?;
    let held = judged_source(source)?;
    refuse_if(seed != union.seed, 16)?;
    Ok(held)
}

/// The pairs (row mod k, column) of a matrix.
fn fold(k: u64, matrix: &[u64]) -> Vec<u64> {
    let mut folded = vec![0; k as usize];
    for row in 0..matrix.len() as u64 {
        for column in 0..64 {
            folded[(row % k) as usize] |= u64::from(has(matrix, row, column)) << column;
        }
    }
    folded
}

/// A source whose seed is given beside it. An Empty one changes nothing.
pub fn merge(union: &Union, source: &Sketch, seed: u64) -> Lent<Vec<u64>> {
    let Union {
        lg,
        present,
        seed: own,
        ref matrix,
    } = *union;
    match judged_merge(union, source, seed) {
        Err(refused) => Lent::expected(refused, matrix.clone()),
        Ok(_) if source.coupons == 0 => Lent::expected(record(lg, present, own), matrix.clone()),
        Ok(held) => {
            let present = present.min(source.lg);
            let (mine, theirs) = (fold(1 << present, matrix), fold(1 << present, &held));
            let mut merged = matrix_of(1 << present, |row, column| {
                has(&mine, row, column) || has(&theirs, row, column)
            });
            merged.resize(matrix.len(), 0);
            Lent::expected(record(lg, present, own), merged)
        }
    }
}

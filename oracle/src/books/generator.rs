//! Random books that pass: complete prefix codes with lengths 1 to 12, low bit first.

use super::BookSet;
use crate::plain_reading::books::PAIR_SYMBOLS;
use crate::plain_reading::books::PHASES;
use crate::plain_reading::books::WINDOW_SYMBOLS;
use crate::plain_reading::books::codeword;
use crate::plain_reading::books::entry;
use crate::plain_reading::books::length;
use crate::random::Random;

/// Which codeword is made two longer ones, time and again until there are enough: so the lengths come
/// out all alike, or from 1 to 12, or between.
#[derive(Clone, Copy)]
pub enum Shape {
    Flat,
    Mixed,
    Leaning,
    Skewed,
}

const SHAPES: [Shape; 4] = [Shape::Flat, Shape::Mixed, Shape::Leaning, Shape::Skewed];

/// Each phase has its own book, and each shape its turn.
pub fn random_set(seed: u64) -> BookSet {
    let mut random = Random::new(seed);
    let symbols = std::iter::once(PAIR_SYMBOLS).chain([WINDOW_SYMBOLS; PHASES]);
    let entries = symbols
        .enumerate()
        .flat_map(|(turn, symbols)| {
            let shape = SHAPES[(seed as usize + turn) % SHAPES.len()];
            random_book(symbols, shape, &mut random)
        })
        .collect();
    BookSet {
        name: format!("random-{seed}"),
        entries,
    }
}

pub fn random_book(symbols: usize, shape: Shape, random: &mut Random) -> Vec<u16> {
    let mut book = vec![entry(1, 0), entry(1, 1)];
    while book.len() < symbols {
        let place = codeword_to_split(&book, shape, random);
        let (short, added) = (length(book[place]), codeword(book[place]));
        book[place] = entry(short + 1, added);
        book.push(entry(short + 1, added | 1 << short));
    }
    random.shuffle(&mut book);
    book
}

/// A codeword that can still grow.
fn codeword_to_split(book: &[u16], shape: Shape, random: &mut Random) -> usize {
    let open: Vec<usize> = (0..book.len())
        .filter(|&place| length(book[place]) < 12)
        .collect();
    let of_length = |place: &&usize| length(book[**place]);
    let any = open[random.below(open.len() as u64) as usize];
    let shortest = *open.iter().min_by_key(of_length).unwrap();
    let longest = *open.iter().max_by_key(of_length).unwrap();
    match shape {
        Shape::Flat => shortest,
        Shape::Mixed => any,
        Shape::Leaning if random.below(2) == 0 => any,
        Shape::Leaning | Shape::Skewed => longest,
    }
}

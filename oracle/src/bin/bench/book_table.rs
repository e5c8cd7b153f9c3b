//! How long the check of a book takes, and the check of a book with its decoding table, beside one
//! pass over 4,096 numbers.

use std::hint::black_box;

use crate::answer::Answer;
use crate::books::generator::Shape;
use crate::books::generator::random_book;
use crate::ours;
use crate::plain_reading::books::PAIR_SYMBOLS;
use crate::plain_reading::books::WINDOW_SYMBOLS;
use crate::plain_reading::books::decoding_table;
use crate::plain_reading::practice;
use crate::random::Random;
use crate::ratios::Ratios;
use crate::ratios::Row;
use crate::ratios::sized;
use crate::timing::Runs;

const RUNS: Runs = Runs {
    runs: 2001,
    calls: 64,
};

const SHAPES: [(&str, Shape); 3] = [
    ("flat", Shape::Flat),
    ("mixed", Shape::Mixed),
    ("skewed", Shape::Skewed),
];

fn one_pass(numbers: &[u16]) -> u64 {
    numbers.iter().map(|&number| u64::from(number)).sum()
}

pub fn measure(ratios: &mut Ratios) {
    let numbers = decoding_table(&practice::pair_book());
    let pass = RUNS.median(|| {
        black_box(one_pass(black_box(&numbers)));
    });
    let mut random = Random::new(1);
    for (symbols, practice) in [
        (PAIR_SYMBOLS, practice::pair_book()),
        (WINDOW_SYMBOLS, practice::window_book()),
    ] {
        add_book(ratios, "practice", &practice, pass);
        for (name, shape) in SHAPES {
            let book = random_book(symbols, shape, &mut random);
            add_book(ratios, name, &book, pass);
        }
    }
}

fn add_book(ratios: &mut Ratios, name: &str, book: &[u16], pass: f64) {
    let table = decoding_table(book);
    let passing = Answer::accepted(&[]);
    let mut add = |what: &str, time: f64| {
        let row = Row::alone(what, sized(book.len() as u64, "symbols"), time);
        let passes = time / pass;
        ratios.add(row.note(format!(
            "{name} book; {passes:.1} passes over 4,096 numbers"
        )));
    };
    let check = RUNS.median(|| assert!(ours::check_book(black_box(book)) == passing));
    add("check a book", check);
    let check =
        RUNS.median(|| assert!(ours::check_table(black_box(book), black_box(&table)) == passing));
    add("check a book and its table", check);
}

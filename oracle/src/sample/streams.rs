//! Pairs and windows, written and read back.

use std::fmt::Write;

use super::BEFORE;
use super::LG_KS;
use super::before_and_after;
use crate::books::BookSet;
use crate::compare::streams::lists::SPREADS;
use crate::compare::streams::lists::random_list;
use crate::compare::streams::phases::random_window;
use crate::listed::Listed;
use crate::plain_reading::streams as reading;
use crate::random::Random;
use crate::rust;

pub fn write(text: &mut String, practice: &BookSet) {
    rust::install(practice);
    let mut random = Random::new(10);
    write_pairs(text, practice, 4, &[5, 70, 71]);
    write_pairs(text, practice, 4, &(0..64).collect::<Vec<u32>>());
    write_pairs(text, practice, 26, &[0, u32::MAX - 1]);
    for (turn, lg) in LG_KS.into_iter().enumerate() {
        for spread in SPREADS {
            let count = 1 + random.below(12 << (turn % 3));
            let pairs = random_list(lg, count, spread, &mut random);
            write_pairs(text, practice, lg, &pairs);
        }
    }
    write_window(text, practice, &[0; 16]);
    write_window(text, practice, &[255; 16]);
    for _ in 0..6 {
        write_window(text, practice, &random_window(4, &mut random));
    }
}

fn write_pairs(text: &mut String, books: &BookSet, lg: u8, pairs: &[u32]) {
    let stream = rust::encode_pairs(pairs, lg).items();
    let read = rust::decode_pairs(&stream, pairs.len() as u32, lg).items();
    let bits = reading::bits_of_pairs(books.pairs(), 1 << lg, pairs).count();
    let (words, count) = (stream.len() / 4, pairs.len());
    let (list, bytes) = (Listed::of(pairs).whole(), Listed::of(&stream).whole());
    let (before, after) = before_and_after(&stream);
    writeln!(
        text,
        "write_pairs pairbook {lg} {list} {before} = 0 0 0 {bits} {words} ; {after}"
    )
    .unwrap();
    let (before, after) = before_and_after(&read);
    writeln!(
        text,
        "read_pairs pairbook pairtable {lg} {count} {bytes} {before} = 0 0 0 ; {after}"
    )
    .unwrap();
}

/// At lg_k 4. With no coupons the phase is 16, but all practice books are one.
fn write_window(text: &mut String, books: &BookSet, window: &[u8]) {
    let stream = rust::encode_window(window, 4, 0).items();
    let read = rust::decode_window(&stream, 4, 0).items();
    let book = books.windows().next().unwrap();
    let bits = reading::bits_of_window(book, window).count();
    let words = stream.len() / 4;
    let (list, bytes) = (Listed::of(window).whole(), Listed::of(&stream).whole());
    let (before, after) = before_and_after(&stream);
    writeln!(
        text,
        "write_window windowbook 4 {list} {before} = 0 0 0 {bits} {words} ; {after}"
    )
    .unwrap();
    let (before, after) = (format!("{BEFORE}x16"), Listed::of(&read).whole());
    writeln!(
        text,
        "read_window windowbook windowtable 4 {bytes} {before} = 0 0 0 ; {after}"
    )
    .unwrap();
}

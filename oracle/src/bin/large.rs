//! The largest lists and streams that document 01 allows, once each: what they take, and that the list
//! read is the list written. It is for reading; what is timed here is no test.

// The modules are those of the comparison, and this program needs a part of each.
#![allow(dead_code)]

#[path = "../answer.rs"]
mod answer;
#[path = "../books/mod.rs"]
mod books;
#[path = "../lent_matrices.rs"]
mod lent_matrices;
#[path = "../lent_tables.rs"]
mod lent_tables;
#[path = "../listed.rs"]
mod listed;
#[path = "../compare/streams/lists.rs"]
mod lists;
#[path = "../ours/mod.rs"]
mod ours;
#[path = "../plain_reading/mod.rs"]
mod plain_reading;
#[path = "../random.rs"]
mod random;

use std::time::Instant;

use answer::Answer;
use books::BookSet;
use datasketches::cpc::CpcSketch;
use lists::Spread;
use plain_reading::books::Coded;
use plain_reading::books::decoding_table;
use plain_reading::numbers;
use plain_reading::streams::MOST_BYTES;

const LG: u8 = 26;
const PAIRS: u32 = 1 << 28;

fn main() {
    let practice = BookSet::practice();
    let table = decoding_table(practice.pairs());
    let coded = Coded {
        book: practice.pairs(),
        table: &table,
    };
    println!("{}, lg_k {LG}, practice book", std::env::consts::ARCH);
    // The list goes before the zeros come: both at once are more memory than is needed.
    whole_list(coded);
    zeros(coded);
}

/// What a call gives, with its seconds printed under a name.
fn timed<T>(name: &str, call: impl FnOnce() -> T) -> T {
    let start = Instant::now();
    let given = call();
    println!("{name:<44} {:>8.2} s", start.elapsed().as_secs_f64());
    given
}

/// As many pairs as a stream may hold, written and read back by both sides.
fn whole_list(coded: Coded) {
    let random = &mut random::Random::new(1);
    let pairs = lists::random_list(LG, PAIRS.into(), Spread::Even, random);
    let mut stream = written(coded, &pairs);
    let rust = timed("the Rust writes them", || {
        CpcSketch::inside().encode_pairs(&pairs, LG)
    });
    assert!(rust == stream, "the Rust writes another stream");
    drop(rust);
    read_back(coded, &pairs, &stream, "ours reads them back");
    let rust = timed("the Rust reads them back", || {
        CpcSketch::inside().decode_pairs(&stream, PAIRS, LG)
    });
    assert!(rust.is_ok_and(|read| read == pairs));
    stream.resize(MOST_BYTES, 0xff);
    read_back(
        coded,
        &pairs,
        &stream,
        "ours reads them, padded to 2^30 bytes",
    );
}

/// The stream that ours writes, with room by the bound.
fn written(coded: Coded, pairs: &[u32]) -> Vec<u8> {
    let bound = 4 * numbers::most_bits(LG, PAIRS).values[1] as usize;
    let mut out = vec![0xa5; bound];
    let answer = timed("ours writes 2^28 pairs, room by the bound", || {
        ours::write_pairs(coded.book, LG, pairs, &mut out)
    });
    let [bits, words, ..] = answer.values;
    assert!(answer == Answer::accepted(&[bits, words]));
    println!("{bits} bits, {words} words; the bound is {bound} bytes");
    out.truncate(4 * words as usize);
    let mut exact = vec![0xa5; out.len()];
    let again = timed("ours writes them, just enough room", || {
        ours::write_pairs(coded.book, LG, pairs, &mut exact)
    });
    assert!(again == answer && exact == out);
    out
}

fn read_back(coded: Coded, pairs: &[u32], stream: &[u8], name: &str) {
    let mut out = vec![0xa5a5_a5a5; pairs.len()];
    let answer = timed(name, || {
        ours::read_pairs(coded, LG, PAIRS, stream, &mut out)
    });
    assert!(answer == Answer::accepted(&[]) && out == pairs);
}

/// As many bytes as a stream may have, all zero: one run of zeros to the end, which both sides refuse.
fn zeros(coded: Coded) {
    let stream = vec![0; MOST_BYTES];
    let mut out = [0xa5a5_a5a5];
    let answer = timed("ours reads 2^30 zero bytes", || {
        ours::read_pairs(coded, LG, 1, &stream, &mut out)
    });
    let Answer {
        number, place, bit, ..
    } = answer;
    assert!(answer == Answer::stopped(number, place, bit) && out == [0xa5a5_a5a5]);
    println!("refusal {number}, place {place}, bit {bit}");
    let rust = timed("the Rust reads them, and refuses too", || {
        CpcSketch::inside().decode_pairs(&stream, 1, LG)
    });
    assert!(rust.is_err());
}

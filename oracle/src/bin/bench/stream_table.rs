//! How long pairs take to be written and to be read, beside the Rust, in one process and on the same
//! lists, books and streams.

use std::hint::black_box;

use datasketches::cpc::CpcSketch;

use crate::lists::Spread;
use crate::lists::random_list;
use crate::ours;
use crate::plain_reading::books::Coded;
use crate::plain_reading::books::decoding_table;
use crate::plain_reading::numbers;
use crate::plain_reading::practice;
use crate::plain_reading::streams::bits_of_pairs;
use crate::random::Random;
use crate::ratios::Ratios;
use crate::ratios::Row;
use crate::ratios::sized;
use crate::timing::Runs;

/// How many pairs, and the lg_k at which they are tried.
const SIZES: [(u64, u8); 5] = [
    (64, 8),
    (1_000, 12),
    (10_000, 15),
    (100_000, 19),
    (600_000, 20),
];

/// Bars are for lists of so many pairs or more.
const LEAST_WITH_BAR: u32 = 1_000;
const WRITING_BAR: f64 = 0.8;
const READING_BAR: f64 = 1.0;

/// A list of pairs, its stream, and the books that both sides have.
struct Tried<'a> {
    coded: Coded<'a>,
    lg: u8,
    pairs: Vec<u32>,
    stream: Vec<u8>,
}

pub fn measure(ratios: &mut Ratios) {
    let book = practice::pair_book();
    let coded = Coded {
        book: &book,
        table: &decoding_table(&book),
    };
    let mut random = Random::new(1);
    let none = Tried::new(coded, 8, 0, &mut random);
    let sizes = SIZES.map(|(count, lg)| Tried::new(coded, lg, count, &mut random));
    let fixed = none.runs().median(|| none.write(&mut []));
    ratios.add(none.fixed_row("write pairs", fixed));
    for tried in &sizes {
        let mut add = |what: &str, room: usize| {
            let times = tried.time_writing(room);
            ratios.add(tried.row(what, times, fixed, WRITING_BAR));
        };
        add("write pairs, room by the bound", tried.bound());
        add("write pairs, room just enough", tried.stream.len());
    }
    let fixed = none.runs().median(|| none.read(&mut []));
    ratios.add(none.fixed_row("read pairs", fixed));
    for tried in &sizes {
        let times = tried.time_reading();
        ratios.add(tried.row("read pairs", times, fixed, READING_BAR));
    }
}

/// The numbers of pairs in the lists of the picture.
const PACED: [u64; 14] = [
    64, 125, 250, 500, 1_000, 2_000, 4_000, 8_000, 16_000, 35_000, 75_000, 150_000, 300_000,
    600_000,
];

/// Million pairs a second in lists of so many: ours, and the Rust's.
pub struct Pace {
    pub pairs: u64,
    pub read: (f64, f64),
    pub written: (f64, f64),
}

/// Each list has four to eight rows for a pair, so that all row steps have as many low bits.
pub fn paces() -> Vec<Pace> {
    let book = practice::pair_book();
    let coded = Coded {
        book: &book,
        table: &decoding_table(&book),
    };
    let mut random = Random::new(1);
    let mut pace = |pairs: u64| {
        let lg = (4 * pairs).next_power_of_two().ilog2() as u8;
        Tried::new(coded, lg, pairs, &mut random).pace()
    };
    PACED.into_iter().map(&mut pace).collect()
}

impl<'a> Tried<'a> {
    fn new(coded: Coded<'a>, lg: u8, count: u64, random: &mut Random) -> Self {
        let pairs = random_list(lg, count, Spread::Even, random);
        let stream = bits_of_pairs(coded.book, 1 << lg, &pairs).words();
        let tried = Self {
            coded,
            lg,
            pairs,
            stream,
        };
        // The Rust divides by zero on an empty list.
        assert!(count == 0 || tried.rust_write() == tried.stream);
        tried
    }

    fn count(&self) -> u32 {
        self.pairs.len() as u32
    }

    /// The bytes that any list of so many pairs fits in.
    fn bound(&self) -> usize {
        4 * numbers::most_bits(self.lg, self.count()).values[1] as usize
    }

    /// The shorter a call, the more of them are one run.
    fn runs(&self) -> Runs {
        Runs {
            runs: if self.count() < 20_000 { 501 } else { 101 },
            calls: (20_000 / (self.count() + 100)).max(1),
        }
    }

    fn write(&self, out: &mut [u8]) {
        let pairs = black_box(&self.pairs);
        assert!(ours::write_pairs(self.coded.book, self.lg, pairs, out).number == 0);
    }

    fn rust_write(&self) -> Vec<u8> {
        CpcSketch::inside().encode_pairs(black_box(&self.pairs), self.lg)
    }

    fn read(&self, out: &mut [u32]) {
        let stream = black_box(&self.stream);
        assert!(ours::read_pairs(self.coded, self.lg, self.count(), stream, out).number == 0);
    }

    fn rust_read(&self) -> Vec<u32> {
        let stream = black_box(&self.stream);
        let read = CpcSketch::inside().decode_pairs(stream, self.count(), self.lg);
        read.expect("the stream is lawful")
    }

    fn time_writing(&self, room: usize) -> (f64, f64) {
        let mut out = vec![0; room];
        let rust = || drop(black_box(self.rust_write()));
        self.runs().medians(|| self.write(&mut out), rust)
    }

    fn time_reading(&self) -> (f64, f64) {
        let mut out = vec![0; self.pairs.len()];
        let rust = || drop(black_box(self.rust_read()));
        self.runs().medians(|| self.read(&mut out), rust)
    }

    /// Written with room by the bound.
    fn pace(&self) -> Pace {
        let pairs = self.count().into();
        let in_a_second = |(ours, rust)| (pairs as f64 / ours, pairs as f64 / rust);
        Pace {
            pairs,
            read: in_a_second(self.time_reading()),
            written: in_a_second(self.time_writing(self.bound())),
        }
    }

    fn size(&self) -> String {
        sized(self.count().into(), "pairs")
    }

    fn row(&self, what: &str, times: (f64, f64), fixed: f64, bar: f64) -> Row {
        let bar = (self.count() >= LEAST_WITH_BAR).then_some(bar);
        Row::beside(what, self.size(), times).fixed(fixed).bar(bar)
    }

    /// The call with no pairs. The Rust has none: it divides by zero, or does nothing.
    fn fixed_row(&self, what: &str, fixed: f64) -> Row {
        Row::alone(what, self.size(), fixed).note("the fixed cost: the judging of the book")
    }
}

//! How long windows take to be written and to be read, beside the Rust, in one process and on the same windows,
//! books and streams.

use std::hint::black_box;

use datasketches::cpc::CpcSketch;

use crate::growing::grown;
use crate::ours;
use crate::plain_reading::books::Coded;
use crate::plain_reading::books::decoding_table;
use crate::plain_reading::practice;
use crate::random::Random;
use crate::ratios::Ratios;
use crate::ratios::Row;
use crate::ratios::share;
use crate::rust::unions::parts;
use crate::timing::Runs;

const LGS: [u8; 3] = [10, 16, 20];

/// So many for each row make a sketch Sliding.
const ITEMS: u64 = 16;

/// The window of a sketch that the crate has grown, its stream, and the books that both sides have.
struct Tried<'a> {
    coded: Coded<'a>,
    lg: u8,
    coupons: u32,
    window: Vec<u8>,
    stream: Vec<u8>,
}

pub fn measure(ratios: &mut Ratios) {
    let book = practice::window_book();
    let coded = Coded {
        book: &book,
        table: &decoding_table(&book),
    };
    let mut random = Random::new(4);
    for lg in LGS {
        let tried = Tried::new(coded, lg, &mut random);
        let mut add = |what: &str, times: (f64, f64), judging: f64| {
            let row = Row::beside(what, format!("lg_k {lg}"), times);
            ratios.add(row.note(format!("judging: {}", share(judging, times.0))));
        };
        let (runs, judged) = (tried.runs(), |number| assert!(number == 0));
        let judging = runs.median(|| judged(ours::check_book(black_box(coded.book)).number));
        let times = tried.time_writing(tried.bound());
        add("write a window, room by the bound", times, judging);
        let times = tried.time_writing(tried.stream.len());
        add("write a window, room just enough", times, judging);
        let (book, table) = (black_box(coded.book), coded.table);
        let judging = runs.median(|| judged(ours::check_table(book, table).number));
        add("read a window", tried.time_reading(), judging);
    }
}

impl<'a> Tried<'a> {
    fn new(coded: Coded<'a>, lg: u8, random: &mut Random) -> Self {
        let sketch = parts(&grown(lg, ITEMS << lg, random));
        let (coupons, window) = (sketch.coupons, sketch.window);
        let stream = CpcSketch::inside().encode_window(&window, lg, coupons);
        let tried = Self {
            coded,
            lg,
            coupons,
            window,
            stream,
        };
        let mut out = vec![0; tried.stream.len()];
        tried.write(&mut out);
        assert!(out == tried.stream);
        tried
    }

    /// The bytes that any window of so many rows fits in: 12 bits for each byte, and 11 zeros.
    fn bound(&self) -> usize {
        (12 * self.window.len() + 11).div_ceil(32) * 4
    }

    /// The shorter a call, the more of them are one run.
    fn runs(&self) -> Runs {
        Runs {
            runs: if self.lg < 16 { 501 } else { 101 },
            calls: (20_000 >> self.lg).max(1),
        }
    }

    fn write(&self, out: &mut [u8]) {
        let window = black_box(&self.window);
        assert!(ours::write_window(self.coded.book, self.lg, window, out).number == 0);
    }

    fn read(&self, out: &mut [u8]) {
        let stream = black_box(&self.stream);
        assert!(ours::read_window(self.coded, self.lg, stream, out).number == 0);
    }

    fn time_writing(&self, room: usize) -> (f64, f64) {
        let mut out = vec![0; room];
        let rust = || {
            let window = black_box(&self.window);
            black_box(CpcSketch::inside().encode_window(window, self.lg, self.coupons));
        };
        self.runs().medians(|| self.write(&mut out), rust)
    }

    fn time_reading(&self) -> (f64, f64) {
        let mut out = vec![0; self.window.len()];
        let rust = || {
            let stream = black_box(&self.stream);
            let read = CpcSketch::inside().decode_window(stream, self.lg, self.coupons);
            black_box(read.expect("the stream is lawful"));
        };
        self.runs().medians(|| self.read(&mut out), rust)
    }
}

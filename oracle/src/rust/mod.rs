//! The Rust's side: the crate as given, with its panics caught.

pub mod tables;
pub mod unions;

use std::cell::Cell;
use std::panic::AssertUnwindSafe;
use std::panic::catch_unwind;
use std::panic::set_hook;
use std::panic::take_hook;

use datasketches::cpc::CpcSketch;
use datasketches::error::Error;

use crate::answer::Spoken;
use crate::books::BookSet;
use crate::plain_reading::books::decoding_table;

/// What the Rust says to an input.
#[derive(Clone, Copy, PartialEq, Eq)]
pub enum Said<V> {
    Value(V),
    Panic,
    /// It would reserve gigabytes first.
    Unasked,
}

impl<V> Said<V> {
    pub fn is(&self, value: &V) -> bool
    where
        V: PartialEq,
    {
        matches!(self, Said::Value(said) if said == value)
    }

    pub fn map<W>(self, change: impl FnOnce(V) -> W) -> Said<W> {
        match self {
            Said::Value(value) => Said::Value(change(value)),
            Said::Panic => Said::Panic,
            Said::Unasked => Said::Unasked,
        }
    }
}

impl<T> Said<Spoken<T>> {
    /// The items of an answer to something lawful.
    pub fn items(self) -> Vec<T> {
        match self {
            Said::Value(Spoken::Items(items)) => items,
            _ => panic!("the Rust does not take what is lawful"),
        }
    }
}

thread_local! {
    static LISTENING: Cell<bool> = const { Cell::new(false) };
}

/// Keeps the panics that are caught from being printed. Any other panic is a fault of the oracle,
/// and is printed as ever.
pub fn silence_caught_panics() {
    let standard = take_hook();
    set_hook(Box::new(move |panic| {
        if !LISTENING.get() {
            standard(panic);
        }
    }));
}

fn listen<V>(call: impl FnOnce() -> V) -> Said<V> {
    LISTENING.set(true);
    let result = catch_unwind(AssertUnwindSafe(call));
    LISTENING.set(false);
    result.map_or(Said::Panic, Said::Value)
}

pub fn determine_flavor(lg: u8, coupons: u32) -> Said<u64> {
    listen(|| u64::from(CpcSketch::inside().determine_flavor(lg, coupons)))
}

pub fn determine_correct_offset(lg: u8, coupons: u32) -> Said<u64> {
    listen(|| u64::from(CpcSketch::inside().determine_correct_offset(lg, coupons)))
}

pub fn determine_pseudo_phase(lg: u8, coupons: u32) -> Said<u64> {
    listen(|| u64::from(CpcSketch::inside().determine_pseudo_phase(lg, coupons)))
}

pub fn number_of_base_bits(lg: u8, pairs: u32) -> Said<u64> {
    listen(|| u64::from(CpcSketch::inside().number_of_base_bits(lg, pairs)))
}

/// From now on the Rust reads and writes with these books.
pub fn install(books: &BookSet) {
    let with_table = |book: &[u16]| (book.to_vec(), decoding_table(book));
    let windows = books.windows().map(with_table).collect();
    CpcSketch::inside().install(with_table(books.pairs()), windows);
}

pub fn encode_pairs(pairs: &[u32], lg: u8) -> Said<Spoken<u8>> {
    listen(|| CpcSketch::inside().encode_pairs(pairs, lg)).map(Spoken::Items)
}

pub fn decode_pairs(stream: &[u8], count: u32, lg: u8) -> Said<Spoken<u32>> {
    listen(|| CpcSketch::inside().decode_pairs(stream, count, lg)).map(spoken)
}

/// The coupons decide the phase, and so the book.
pub fn encode_window(window: &[u8], lg: u8, coupons: u32) -> Said<Spoken<u8>> {
    listen(|| CpcSketch::inside().encode_window(window, lg, coupons)).map(Spoken::Items)
}

pub fn decode_window(stream: &[u8], lg: u8, coupons: u32) -> Said<Spoken<u8>> {
    listen(|| CpcSketch::inside().decode_window(stream, lg, coupons)).map(spoken)
}

fn spoken<T>(result: Result<Vec<T>, Error>) -> Spoken<T> {
    match result {
        Ok(items) => Spoken::Items(items),
        Err(error) => Spoken::Refusal(number_of(error.message())),
    }
}

/// Document 01's number for what the reader of `compression.rs` says. Its sixth message needs a run of
/// 2^64 zeros.
fn number_of(message: &str) -> u32 {
    match message {
        "CPC compressed stream is truncated" => 6,
        "CPC pair row delta overflows" => 7,
        "CPC pair row index is out of range" => 8,
        "CPC pair column index is out of range" => 9,
        "CPC pair uses the reserved empty-table sentinel" => 10,
        other => panic!("document 01 has no number for: {other}"),
    }
}

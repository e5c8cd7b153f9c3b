//! How long tables take to be built, listed and changed, beside the Rust, in one process and on the same
//! lists and tables.

use std::hint::black_box;

use datasketches::cpc::CpcSketch;

use crate::answer::Answer;
use crate::lent_tables::Record;
use crate::lists::Spread;
use crate::lists::increasing;
use crate::ours::tables as ours;
use crate::plain_reading::pair_lists::RESERVED;
use crate::plain_reading::tables::least_lg;
use crate::random::Random;
use crate::ratios::Ratios;
use crate::ratios::Row;
use crate::ratios::sized;
use crate::timing::Runs;

const VALID: u8 = 32;

/// The fields of the Rust's table.
type Fields = (u8, u8, u32, Vec<u32>);

/// A table on both sides, and the list that it was built from.
struct Tried {
    list: Vec<u32>,
    record: Record,
    region: Vec<u32>,
    spare: Vec<u32>,
    rust: Fields,
}

/// Of an evenly spread rising list.
const BUILD_BAR: f64 = 1.5;

pub fn measure(ratios: &mut Ratios) {
    let mut random = Random::new(2);
    for count in [1_000, 100_000, 10_000_000] {
        let list = increasing(RESERVED.into(), count, Spread::Even, &mut random);
        let mut tried = Tried::new(list);
        let build = tried.row("build, rising", Tried::time_build);
        ratios.add(build.bar(BUILD_BAR));
        ratios.add(tried.row("extract", Tried::time_extract));
        ratios.add(tried.row("walk", Tried::time_walk));
    }
    for count in [1_000, 100_000] {
        let mut tried = Tried::new((0..count).collect());
        let build = tried.row("build, rising, side by side", Tried::time_build);
        ratios.add(build.note("0, 1, 2 and so on, all of one home"));
    }
    for lg in [4, 10, 16] {
        let list = increasing(RESERVED.into(), 1 << (lg - 1), Spread::Even, &mut random);
        let insert = Tried::new(list).row("insert", Tried::time_insert);
        ratios.add(insert.note("the table is half full"));
    }
}

impl Tried {
    fn new(list: Vec<u32>) -> Self {
        let length = 1 << least_lg(list.len());
        let (mut region, mut spare) = (vec![0; length], vec![0; length]);
        let built = ours::build(VALID, &list, &mut region, &mut spare);
        assert!(built.number == 0);
        let record = Record::of_values(&built.values);
        let rust = (record.lg, record.valid, record.items, region.clone());
        Self {
            list,
            record,
            region,
            spare,
            rust,
        }
    }

    fn row(&mut self, what: &str, time: fn(&mut Self) -> (f64, f64)) -> Row {
        Row::beside(what, sized(self.list.len() as u64, "items"), time(self))
    }

    /// The shorter a call, the more of them are one run. Of the Rust's slowest builds one must do.
    fn runs(&self) -> Runs {
        let is_side_by_side = self.list.last() == Some(&(self.record.items - 1));
        let (runs, calls) = match self.list.len() {
            0..10_000 => (301, 10),
            10_000..200_000 if is_side_by_side => (1, 1),
            10_000..200_000 => (51, 1),
            _ => (5, 1),
        };
        Runs { runs, calls }
    }

    /// The Rust takes its list with it, so that copies are made before the clock starts.
    fn time_build(&mut self) -> (f64, f64) {
        let runs = self.runs();
        let mut lists = vec![self.list.clone(); runs.runs * runs.calls as usize];
        let (list, region, spare) = (&self.list, &mut self.region, &mut self.spare);
        let rust = || {
            let list = lists.pop().expect("there is one for each call");
            let built = CpcSketch::inside().table_from_slots(VALID - 6, black_box(list));
            assert!(black_box(built).is_ok());
        };
        let ours = || {
            let built = ours::build(VALID, black_box(list), region, spare);
            assert!(built.number == 0);
        };
        runs.medians(ours, rust)
    }

    fn time_extract(&mut self) -> (f64, f64) {
        self.time_listing(ours::extract, |fields| {
            CpcSketch::inside().table_items(fields)
        })
    }

    fn time_walk(&mut self) -> (f64, f64) {
        self.time_listing(ours::walk, |fields| CpcSketch::inside().table_walk(fields))
    }

    fn time_listing(
        &mut self,
        ours: fn(Record, &[u32], &[u32], &mut [u32]) -> Answer,
        rust: fn(&mut Fields) -> Vec<u32>,
    ) -> (f64, f64) {
        let runs = self.runs();
        let mut out = vec![0; self.list.len()];
        let (record, region, spare) = (self.record, &self.region, &self.spare);
        let ours = || assert!(ours(record, black_box(region), spare, &mut out).number == 0);
        let fields = &mut self.rust;
        runs.medians(ours, || drop(black_box(rust(fields))))
    }

    /// An item that is not there yet. The slot that it takes is emptied again, which costs next to nothing.
    fn time_insert(&mut self) -> (f64, f64) {
        let item = (0..).find(|item| !self.list.contains(item)).unwrap();
        let (mut region, mut spare) = (self.region.clone(), self.spare.clone());
        assert!(ours::insert(self.record, &mut region, &mut spare, item).values[0] == 1);
        let is_taken = |&slot: &usize| region[slot] == item;
        let slot = (0..region.len()).find(is_taken).unwrap();
        region[slot] = RESERVED;
        let record = self.record;
        let ours = || {
            assert!(ours::insert(record, &mut region, &mut spare, black_box(item)).number == 0);
            region[slot] = RESERVED;
        };
        let fields = &mut self.rust;
        let rust = || {
            assert!(CpcSketch::inside().table_insert(fields, black_box(item)));
            fields.2 -= 1;
            fields.3[slot] = RESERVED;
        };
        let runs = Runs {
            runs: 301,
            calls: 20,
        };
        runs.medians(ours, rust)
    }
}

//! Medians of the clock.

use std::time::Instant;

/// How many runs are made, each a batch of so many calls, since a clock is too coarse for a single one.
#[derive(Clone, Copy)]
pub struct Runs {
    pub runs: usize,
    pub calls: u32,
}

impl Runs {
    /// One run's microseconds for a call.
    fn time(self, call: &mut impl FnMut()) -> f64 {
        let start = Instant::now();
        (0..self.calls).for_each(|_| call());
        start.elapsed().as_secs_f64() * 1e6 / f64::from(self.calls)
    }

    pub fn median(self, mut call: impl FnMut()) -> f64 {
        middle((0..self.runs).map(|_| self.time(&mut call)).collect())
    }

    /// Of two calls, whose runs take turns, so that a busy machine slows both.
    pub fn medians(self, mut one: impl FnMut(), mut other: impl FnMut()) -> (f64, f64) {
        let turn = |_| (self.time(&mut one), self.time(&mut other));
        let (ones, others) = (0..self.runs).map(turn).unzip();
        (middle(ones), middle(others))
    }
}

fn middle(mut times: Vec<f64>) -> f64 {
    times.sort_unstable_by(f64::total_cmp);
    times[times.len() / 2]
}

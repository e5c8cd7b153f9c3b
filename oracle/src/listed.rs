//! A list as an input is shown and ordered: by its length first, and as runs, so that a long stream of
//! zeros is short.

use std::cmp::Ordering;
use std::fmt;

/// A value, and how often it stands there.
#[derive(Clone, PartialEq, Eq)]
struct Run<T> {
    value: T,
    times: usize,
}

#[derive(Clone, PartialEq, Eq)]
pub struct Listed<T> {
    length: usize,
    runs: Vec<Run<T>>,
}

/// More runs than that are not printed.
const SHOWN: usize = 24;

impl<T: Copy + PartialEq> Listed<T> {
    pub fn of(list: &[T]) -> Self {
        let run = |run: &[T]| Run {
            value: run[0],
            times: run.len(),
        };
        Self {
            length: list.len(),
            runs: list.chunk_by(|one, next| one == next).map(run).collect(),
        }
    }

    pub fn holds(&self, wanted: T) -> bool {
        self.any(|&value| value == wanted)
    }
}

impl<T> Listed<T> {
    pub fn len(&self) -> usize {
        self.length
    }

    pub fn last(&self) -> Option<&T> {
        self.runs.last().map(|run| &run.value)
    }

    /// One of the values passes the test.
    pub fn any(&self, test: impl Fn(&T) -> bool) -> bool {
        self.runs.iter().any(|run| test(&run.value))
    }

    pub fn values(&self) -> impl Iterator<Item = &T> {
        self.runs
            .iter()
            .flat_map(|run| std::iter::repeat_n(&run.value, run.times))
    }
}

impl<T: Ord> Ord for Listed<T> {
    fn cmp(&self, other: &Self) -> Ordering {
        let by_values = || self.values().cmp(other.values());
        self.length.cmp(&other.length).then_with(by_values)
    }
}

impl<T: PartialOrd> PartialOrd for Listed<T> {
    fn partial_cmp(&self, other: &Self) -> Option<Ordering> {
        match self.length.cmp(&other.length) {
            Ordering::Equal => self.values().partial_cmp(other.values()),
            unequal => Some(unequal),
        }
    }
}

impl<T: fmt::Display> Listed<T> {
    /// As in the stored cases: `5,70x3,71`, and `-` for nothing.
    pub fn whole(&self) -> String {
        self.first(self.runs.len())
    }

    fn first(&self, runs: usize) -> String {
        let show = |run: &Run<T>| match run.times {
            1 => run.value.to_string(),
            times => format!("{}x{times}", run.value),
        };
        match self.length {
            0 => "-".to_string(),
            _ => {
                let shown: Vec<String> = self.runs.iter().take(runs).map(show).collect();
                shown.join(",")
            }
        }
    }
}

impl<T: fmt::Display> fmt::Display for Listed<T> {
    fn fmt(&self, f: &mut fmt::Formatter<'_>) -> fmt::Result {
        write!(f, "{}", self.first(SHOWN))?;
        if self.runs.len() > SHOWN {
            write!(f, ",.. (of {})", self.length)?;
        }
        Ok(())
    }
}

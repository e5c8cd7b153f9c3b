//! What a call answers, in the terms of document 01: the refusal number, the place, the bit, and the
//! values; and the lent memory that it leaves behind.

use std::fmt::Debug;
use std::fmt::Display;

use crate::listed::Listed;

/// How many values an answer has room for, after the place and the bit.
pub const VALUES: usize = 6;

/// Number 0 is an acceptance. What a call has no use for is 0.
#[derive(Clone, Copy, Debug, PartialEq, Eq)]
pub struct Answer {
    pub number: u32,
    pub place: u64,
    pub bit: u64,
    pub values: [u64; VALUES],
}

impl Answer {
    pub fn accepted(given: &[u64]) -> Self {
        let mut values = [0; VALUES];
        values[..given.len()].copy_from_slice(given);
        Self {
            number: 0,
            place: 0,
            bit: 0,
            values,
        }
    }

    pub fn refused(number: u32) -> Self {
        Self::refused_at(number, 0)
    }

    pub fn refused_at(number: u32, place: u64) -> Self {
        Self {
            number,
            place,
            ..Self::accepted(&[])
        }
    }

    /// A reader's refusal, which has a bit position too.
    pub fn stopped(number: u32, place: u64, bit: u64) -> Self {
        Self {
            bit,
            ..Self::refused_at(number, place)
        }
    }
}

/// What the oracle compares. Each kind says in words what it holds.
pub trait Outcome: PartialEq {
    /// The number of the refusal, 0 if there is none.
    fn number(&self) -> u32;

    fn say(&self) -> String;

    /// Where two outcomes part, if `say` is too short to show it.
    fn parting(&self, _other: &Self) -> Option<String> {
        None
    }
}

impl Outcome for Answer {
    fn number(&self) -> u32 {
        self.number
    }

    fn say(&self) -> String {
        let used = self.values.iter().rposition(|&value| value != 0);
        let values = self.values[..used.map_or(0, |last| last + 1)]
            .iter()
            .map(|value| format!(" {value}"))
            .collect::<String>();
        let position = match (self.place, self.bit) {
            (0, 0) => String::new(),
            (place, bit) => format!(", place {place}, bit {bit}"),
        };
        match self.number {
            0 if values.is_empty() => format!("answers 0{position}"),
            0 => format!("answers{values}{position}"),
            number if values.is_empty() => format!("refuses {number}{position}"),
            number => format!("refuses {number}{position}, values{values}"),
        }
    }
}

/// Memory that is lent to be written: one list, or several.
pub trait LentMemory: PartialEq {
    /// Where two of these part, in words.
    fn parting(&self, other: &Self) -> Option<String>;
}

impl<T: Debug + PartialEq> LentMemory for Vec<T> {
    fn parting(&self, other: &Self) -> Option<String> {
        parting("lent memory", self, other)
    }
}

/// Where two lists part, in words.
pub fn parting<T: Debug + PartialEq>(name: &str, mine: &[T], theirs: &[T]) -> Option<String> {
    let place = (0..mine.len()).find(|&place| theirs.get(place) != Some(&mine[place]))?;
    let (mine, theirs) = (&mine[place], theirs.get(place));
    Some(format!("the {name} parts at {place}: {mine:?}, {theirs:?}"))
}

/// An answer together with the memory that it leaves.
#[derive(Clone, PartialEq, Eq)]
pub struct Lent<M> {
    pub answer: Answer,
    pub memory: M,
    /// The memory next to each lent list, on both sides, is as it was.
    pub surroundings_stay: bool,
}

impl<M> Lent<M> {
    pub fn expected(answer: Answer, memory: M) -> Self {
        Self {
            answer,
            memory,
            surroundings_stay: true,
        }
    }
}

impl<T: Clone> Lent<Vec<T>> {
    /// As much as the Rust speaks of, where the first so many items are what was written or read.
    pub fn spoken(&self, items: usize) -> Spoken<T> {
        match self.answer.number {
            0 => Spoken::Items(self.memory[..items.min(self.memory.len())].to_vec()),
            number => Spoken::Refusal(number),
        }
    }
}

impl<M: LentMemory> Outcome for Lent<M> {
    fn number(&self) -> u32 {
        self.answer.number
    }

    fn say(&self) -> String {
        let beyond = match self.surroundings_stay {
            true => "",
            false => ", and writes beyond what is lent",
        };
        format!("{}{beyond}", self.answer.say())
    }

    fn parting(&self, other: &Self) -> Option<String> {
        self.memory.parting(&other.memory)
    }
}

/// What the Rust says of a stream: the items that it wrote or read, all of them, or the number of the
/// refusal. It gives no place, no bit, and no items before a fault.
#[derive(Clone, PartialEq, Eq)]
pub enum Spoken<T> {
    Items(Vec<T>),
    Refusal(u32),
}

impl<T: Copy + Display + PartialEq> Outcome for Spoken<T> {
    fn number(&self) -> u32 {
        match self {
            Spoken::Items(_) => 0,
            Spoken::Refusal(number) => *number,
        }
    }

    fn say(&self) -> String {
        match self {
            Spoken::Items(items) => format!("gives {} items: {}", items.len(), Listed::of(items)),
            Spoken::Refusal(number) => format!("refuses {number}"),
        }
    }
}

/// A list in the middle of a larger memory, so that a write past either end shows.
pub struct Surrounded<T> {
    whole: Vec<T>,
    around: T,
}

/// So many items stand before the list, and as many after it.
const MARGIN: usize = 16;

impl<T: Copy + PartialEq> Surrounded<T> {
    pub fn new(list: &[T], around: T) -> Self {
        let mut whole = vec![around; MARGIN + list.len() + MARGIN];
        whole[MARGIN..MARGIN + list.len()].copy_from_slice(list);
        Self { whole, around }
    }

    pub fn list(&mut self) -> &mut [T] {
        let end = self.whole.len() - MARGIN;
        &mut self.whole[MARGIN..end]
    }

    pub fn stays_around(&self) -> bool {
        let (before, rest) = self.whole.split_at(MARGIN);
        let after = &rest[rest.len() - MARGIN..];
        before.iter().chain(after).all(|item| *item == self.around)
    }
}

/// Lends a list to a call.
pub fn lend<T: Copy + PartialEq>(
    list: &[T],
    around: T,
    call: impl FnOnce(&mut [T]) -> Answer,
) -> Lent<Vec<T>> {
    let mut lent = Surrounded::new(list, around);
    Lent {
        answer: call(lent.list()),
        surroundings_stay: lent.stays_around(),
        memory: lent.list().to_vec(),
    }
}

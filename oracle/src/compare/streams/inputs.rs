//! What a stream call is handed, as far as the Rust is handed it too, and the classes that more than one
//! of these calls has.

use std::fmt;

use crate::cases::Class;
use crate::listed::Listed;
use crate::plain_reading::streams::MOST_BYTES;

/// Ordered as it is printed: by lg_k, the number, then the items.
#[derive(Clone, PartialEq, Eq, PartialOrd, Ord)]
pub struct Input<T> {
    pub lg: u8,
    /// Of pairs, how many are written or asked for; of a window, the phase.
    pub number: u32,
    /// The pairs, the bytes of the window, or the bytes of the stream.
    pub items: Listed<T>,
    pub room: Room,
    pub books: String,
}

/// How many items the lent output has room for, beside what is needed.
#[derive(Clone, Copy, PartialEq, Eq, PartialOrd, Ord)]
pub enum Room {
    Exact,
    More(usize),
    Less(usize),
}

impl Room {
    /// The length of the output, or nothing if it cannot be so short.
    pub fn beside(self, needed: usize) -> Option<usize> {
        match self {
            Room::Exact => Some(needed),
            Room::More(items) => needed.checked_add(items),
            Room::Less(items) => needed.checked_sub(items),
        }
    }
}

impl<T: fmt::Display> fmt::Display for Input<T> {
    fn fmt(&self, f: &mut fmt::Formatter<'_>) -> fmt::Result {
        write!(f, "{} {} {}", self.lg, self.number, self.items)?;
        if let Room::Less(items) = self.room {
            write!(f, ", room short by {items}")?;
        }
        write!(f, ", {} books", self.books)
    }
}

impl<T> Input<T> {
    pub fn rows(&self) -> u64 {
        1u64.checked_shl(self.lg.into()).unwrap_or(0)
    }
}

pub const fn lg_outside<T>() -> Class<Input<T>> {
    Class {
        name: "lg_k outside 4..26",
        sides: "ours refuses 1, the Rust goes on or panics",
        holds: |input| !(4..=26).contains(&input.lg),
    }
}

pub const fn no_room<T>() -> Class<Input<T>> {
    Class {
        name: "output shorter than needed",
        sides: "ours refuses 5, the Rust makes its own",
        holds: |input| matches!(input.room, Room::Less(_)),
    }
}

pub const LONG_STREAM: Class<Input<u8>> = Class {
    name: "stream over 2^30 bytes",
    sides: "ours refuses 2, the Rust reads it",
    holds: |input| input.items.len() > MOST_BYTES,
};

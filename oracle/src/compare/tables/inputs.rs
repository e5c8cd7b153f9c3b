//! What a table call is handed, as far as the Rust is handed it too, and the intended differences. Each
//! input is ordered as it is printed.

use std::fmt;

use crate::cases::Class;
use crate::lent_tables::Record;
use crate::lent_tables::Table;
use crate::listed::Listed;
use crate::plain_reading::pair_lists::RESERVED;
use crate::plain_reading::streams::MOST_PAIRS;
use crate::plain_reading::tables::least_lg;

/// A new table, in a region of so many slots.
#[derive(Clone, PartialEq, Eq, PartialOrd, Ord)]
pub struct NewInput {
    pub lg: u8,
    pub valid: u8,
    pub length: usize,
}

impl fmt::Display for NewInput {
    fn fmt(&self, f: &mut fmt::Formatter<'_>) -> fmt::Result {
        write!(f, "{} {}, region of {}", self.lg, self.valid, self.length)
    }
}

pub const NEW_CLASSES: &[Class<NewInput>] = &[
    Class {
        name: "lg outside 2..26, or valid bits outside lg+1..32",
        sides: "ours refuses 15, the Rust panics",
        holds: |input| !(2..=26).contains(&input.lg) || !(input.lg + 1..=32).contains(&input.valid),
    },
    Class {
        name: "region shorter than the slots",
        sides: "ours refuses 5, the Rust makes its own",
        holds: |input| input.length < 1 << input.lg,
    },
];

/// A list to be built into a region of so many slots.
#[derive(Clone, PartialEq, Eq, PartialOrd, Ord)]
pub struct BuildInput {
    pub valid: u8,
    pub list: Listed<u32>,
    pub length: usize,
}

impl fmt::Display for BuildInput {
    fn fmt(&self, f: &mut fmt::Formatter<'_>) -> fmt::Result {
        write!(f, "{} {}, region of {}", self.valid, self.list, self.length)
    }
}

pub const BUILD_CLASSES: &[Class<BuildInput>] = &[
    Class {
        name: "valid bits outside 3..32",
        sides: "ours refuses 15, the Rust panics, or refuses what it meets first",
        holds: |input| !(3..=32).contains(&input.valid),
    },
    Class {
        name: "more than 2^28 items",
        sides: "ours refuses 4, the Rust refuses as by 13",
        holds: |input| input.list.len() as u64 > MOST_PAIRS,
    },
    Class {
        name: "the reserved number, at 32 valid bits",
        sides: "ours refuses 10, the Rust calls it a duplicate, or refuses what it meets first",
        holds: |input| input.valid == 32 && input.list.holds(RESERVED),
    },
    Class {
        name: "an item not below 2^v, or the reserved number below 32 valid bits",
        sides: "ours refuses 12 or 10, the Rust panics, or refuses what it meets first",
        holds: |input| input.list.any(|&item| u64::from(item) >= 1 << input.valid),
    },
    Class {
        name: "more items than the valid bits allow",
        sides: "ours refuses 13, the Rust panics",
        holds: |input| (input.valid..=26).contains(&least_lg(input.list.len())),
    },
    Class {
        name: "region shorter than the slots",
        sides: "ours refuses 5, the Rust makes its own",
        holds: |input| {
            let lg = least_lg(input.list.len());
            lg <= 26 && input.length < 1 << lg
        },
    },
];

/// A lent table and an item to insert or to delete.
#[derive(Clone, PartialEq, Eq, PartialOrd, Ord)]
pub struct ChangeInput {
    pub record: Record,
    pub region: Listed<u32>,
    pub item: u32,
}

impl ChangeInput {
    pub fn new(table: &Table, item: u32) -> Self {
        Self {
            record: table.record,
            region: Listed::of(&table.region),
            item,
        }
    }

    /// The item is not there, and one more is too many for the slots.
    fn must_grow(&self) -> bool {
        4 * (u64::from(self.record.items) + 1) > 3 << self.record.lg
            && !self.region.holds(self.item)
    }
}

impl fmt::Display for ChangeInput {
    fn fmt(&self, f: &mut fmt::Formatter<'_>) -> fmt::Result {
        write!(f, "{} {}, item {}", self.record, self.region, self.item)
    }
}

const RESERVED_AT_32: Class<ChangeInput> = Class {
    name: "the reserved number, at 32 valid bits",
    sides: "ours refuses 10, the Rust answers false",
    holds: |input| input.item == RESERVED && input.record.valid == 32,
};

const RESERVED_BELOW_32: Class<ChangeInput> = Class {
    name: "the reserved number, below 32 valid bits",
    sides: "ours refuses 10, the Rust panics",
    holds: |input| input.item == RESERVED,
};

const ITEM_NOT_BELOW: Class<ChangeInput> = Class {
    name: "an item not below 2^v",
    sides: "ours refuses 12, the Rust panics",
    holds: |input| u64::from(input.item) >= 1 << input.record.valid,
};

pub const INSERT_CLASSES: &[Class<ChangeInput>] = &[
    RESERVED_AT_32,
    RESERVED_BELOW_32,
    ITEM_NOT_BELOW,
    Class {
        name: "growth past the valid bits",
        sides: "ours refuses 13, the Rust stores the item and then panics",
        holds: |input| input.record.lg + 1 >= input.record.valid && input.must_grow(),
    },
    Class {
        name: "region too short to grow in",
        sides: "ours refuses 5, the Rust makes its own",
        holds: |input| input.region.len() < 2 << input.record.lg && input.must_grow(),
    },
];

pub const DELETE_CLASSES: &[Class<ChangeInput>] =
    &[RESERVED_AT_32, RESERVED_BELOW_32, ITEM_NOT_BELOW];

/// A lent table, and for a listing the room of its output.
#[derive(Clone, PartialEq, Eq, PartialOrd, Ord)]
pub struct WholeInput {
    pub record: Record,
    pub region: Listed<u32>,
    pub room: usize,
}

impl WholeInput {
    pub fn new(table: &Table, room: usize) -> Self {
        Self {
            record: table.record,
            region: Listed::of(&table.region),
            room,
        }
    }
}

impl fmt::Display for WholeInput {
    fn fmt(&self, f: &mut fmt::Formatter<'_>) -> fmt::Result {
        write!(f, "{} {}, room {}", self.record, self.region, self.room)
    }
}

pub const LISTING_CLASSES: &[Class<WholeInput>] = &[Class {
    name: "output shorter than the items",
    sides: "ours refuses 5, the Rust makes its own",
    holds: |input| input.room < input.record.items as usize,
}];

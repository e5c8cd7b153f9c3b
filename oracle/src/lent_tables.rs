//! A pair table as it is lent: its record, its region and its spare, with the output of a listing; and
//! what a call leaves of them.

use std::fmt;

use crate::answer::Answer;
use crate::answer::Lent;
use crate::answer::LentMemory;
use crate::answer::Outcome;
use crate::answer::Surrounded;
use crate::answer::parting;
use crate::plain_reading::pair_lists::RESERVED;
use crate::random::Random;

/// What a table is described by, besides its slots.
#[derive(Clone, Copy, PartialEq, Eq, PartialOrd, Ord, Hash)]
pub struct Record {
    pub lg: u8,
    pub valid: u8,
    pub items: u32,
}

impl Record {
    pub fn values(self) -> [u64; 3] {
        [self.lg.into(), self.valid.into(), self.items.into()]
    }

    /// The record among the values of an answer.
    pub fn of_values(values: &[u64]) -> Self {
        Self {
            lg: values[0] as u8,
            valid: values[1] as u8,
            items: values[2] as u32,
        }
    }
}

impl fmt::Display for Record {
    fn fmt(&self, f: &mut fmt::Formatter<'_>) -> fmt::Result {
        write!(f, "{} {} {}", self.lg, self.valid, self.items)
    }
}

/// A record and a region.
#[derive(Clone, PartialEq, Eq, Hash)]
pub struct Table {
    pub record: Record,
    pub region: Vec<u32>,
}

impl Table {
    /// No items, in a region of so many slots.
    pub fn empty(lg: u8, valid: u8, length: usize) -> Self {
        Self {
            record: Record {
                lg,
                valid,
                items: 0,
            },
            region: vec![RESERVED; length],
        }
    }

    /// So many items at their homes, in the first slots.
    pub fn at_home(lg: u8, valid: u8, items: u32, length: usize) -> Self {
        let mut table = Self::empty(lg, valid, length);
        table.record.items = items;
        for slot in 0..items {
            table.region[slot as usize] = slot << (valid - lg);
        }
        table
    }

    /// What stands at the first slot from any one on that is not empty; 0 if all are.
    pub fn any_held(&self, random: &mut Random) -> u32 {
        let slots = self.slots();
        let (before, after) = slots.split_at(random.below(slots.len() as u64) as usize);
        let mut held = after.iter().chain(before).filter(|&&slot| slot != RESERVED);
        held.next().copied().unwrap_or(0)
    }

    /// The table's own slots, where the region is not too short for them.
    pub fn slots(&self) -> &[u32] {
        &self.region[..1 << self.record.lg]
    }
}

/// The memory that is lent to a call. Only a listing has an output.
#[derive(Clone, PartialEq, Eq)]
pub struct Memory {
    pub region: Vec<u32>,
    pub spare: Vec<u32>,
    pub out: Vec<u32>,
}

/// What a spare and an output hold before.
const BEFORE: u32 = 0x0bad_cafe;

impl Memory {
    /// A region with a spare of the same length, and an output of another, both full of garbage.
    pub fn around(region: &[u32], room: usize) -> Self {
        Self::with_spare(region, region.len(), room)
    }

    pub fn with_spare(region: &[u32], spare: usize, room: usize) -> Self {
        Self {
            region: region.to_vec(),
            spare: vec![BEFORE; spare],
            out: vec![BEFORE; room],
        }
    }
}

impl LentMemory for Memory {
    fn parting(&self, other: &Self) -> Option<String> {
        parting("region", &self.region, &other.region)
            .or_else(|| parting("spare", &self.spare, &other.spare))
            .or_else(|| parting("output", &self.out, &other.out))
    }
}

pub type LentTable = Lent<Memory>;

/// Lends region, spare and output to a call.
pub fn lend_table(
    memory: &Memory,
    call: impl FnOnce(&mut [u32], &mut [u32], &mut [u32]) -> Answer,
) -> LentTable {
    let lists = [&memory.region, &memory.spare, &memory.out];
    let mut lent = lists.map(|list| Surrounded::new(list, 0x5ca1_ab1e));
    let [region, spare, out] = lent.each_mut().map(Surrounded::list);
    let answer = call(region, spare, out);
    let surroundings_stay = lent.iter().all(Surrounded::stays_around);
    let [region, spare, out] = lent.each_mut().map(|list| list.list().to_vec());
    Lent {
        answer,
        memory: Memory { region, spare, out },
        surroundings_stay,
    }
}

/// What the Rust says of a call on a table: whether it changed it, and the table afterwards; or the number
/// of the refusal. It has no spare and no room beyond the slots.
#[derive(Clone, PartialEq, Eq)]
pub enum SpokenTable {
    Table { changed: bool, table: Table },
    Refusal(u32),
}

impl Outcome for SpokenTable {
    fn number(&self) -> u32 {
        match self {
            SpokenTable::Table { .. } => 0,
            SpokenTable::Refusal(number) => *number,
        }
    }

    fn say(&self) -> String {
        match self {
            SpokenTable::Table { changed: false, .. } => "answers false".to_string(),
            SpokenTable::Table { table, .. } => format!("leaves a table {}", table.record),
            SpokenTable::Refusal(number) => format!("refuses {number}"),
        }
    }

    fn parting(&self, other: &Self) -> Option<String> {
        let (Self::Table { table: mine, .. }, Self::Table { table: theirs, .. }) = (self, other)
        else {
            return None;
        };
        parting("table", &mine.region, &theirs.region)
    }
}

//! Refusals: number, place, bit position, and words for them.

use std::error::Error;
use std::fmt;

use crate::telling::Telling;

/// Why a call refused: one for each of the 17 numbers.
#[derive(Clone, Copy, PartialEq, Eq, PartialOrd, Ord, Hash, Debug)]
#[repr(u8)]
pub enum Reason {
    /// 1: an lg_k outside 4..26, a union's configured one too.
    LgOutside = 1,
    /// 2: a lent part of wrong length.
    WrongLength,
    /// 3: the book fails the check, the lent decoding table is not that book's, or there is no such phase.
    WrongBook,
    /// 4: more than 2^28 pairs.
    TooManyPairs,
    /// 5: an output or a table's region that is shorter than needed.
    NoRoom,
    /// 6: the stream ends inside a read.
    StreamEnds,
    /// 7: the row step is 2^32 or more.
    RowStepTooLarge,
    /// 8: the row is not below k.
    RowNotBelow,
    /// 9: the column is not below 64.
    ColumnNotBelow,
    /// 10: the reserved number, or its bit in a matrix or window at lg_k 26.
    Reserved,
    /// 11: a pair that is not above the one before; in a table build, a duplicate.
    NotAbove,
    /// 12: an item that is not below 2^(valid bits).
    ItemNotBelow,
    /// 13: the table must grow, but its new lg would pass 26 or not be below the valid bits.
    CannotGrow,
    /// 14: a window bit past column 63, or a listed pair inside the window's columns.
    WrongWindow,
    /// 15: the lent state is not lawful.
    NotLawful,
    /// 16: the seeds differ.
    SeedsDiffer,
    /// 17: the stated coupons differ from those held, or exceed 64k.
    WrongCoupons,
}

impl Reason {
    /// All of them; the reason of number n stands at n - 1.
    pub const ALL: [Reason; 17] = [
        Reason::LgOutside,
        Reason::WrongLength,
        Reason::WrongBook,
        Reason::TooManyPairs,
        Reason::NoRoom,
        Reason::StreamEnds,
        Reason::RowStepTooLarge,
        Reason::RowNotBelow,
        Reason::ColumnNotBelow,
        Reason::Reserved,
        Reason::NotAbove,
        Reason::ItemNotBelow,
        Reason::CannotGrow,
        Reason::WrongWindow,
        Reason::NotLawful,
        Reason::SeedsDiffer,
        Reason::WrongCoupons,
    ];

    /// The reason of a refusal number, if there is one.
    pub fn of_number(number: u32) -> Option<Reason> {
        let index = number.checked_sub(1)?;
        Self::ALL.get(index as usize).copied()
    }

    /// The refusal number, 1 to 17.
    pub fn number(self) -> u32 {
        self as u32
    }

    /// The name, as in docs/REFUSALS.md.
    pub fn name(self) -> &'static str {
        match self {
            Reason::LgOutside => "LgOutside",
            Reason::WrongLength => "WrongLength",
            Reason::WrongBook => "WrongBook",
            Reason::TooManyPairs => "TooManyPairs",
            Reason::NoRoom => "NoRoom",
            Reason::StreamEnds => "StreamEnds",
            Reason::RowStepTooLarge => "RowStepTooLarge",
            Reason::RowNotBelow => "RowNotBelow",
            Reason::ColumnNotBelow => "ColumnNotBelow",
            Reason::Reserved => "Reserved",
            Reason::NotAbove => "NotAbove",
            Reason::ItemNotBelow => "ItemNotBelow",
            Reason::CannotGrow => "CannotGrow",
            Reason::WrongWindow => "WrongWindow",
            Reason::NotLawful => "NotLawful",
            Reason::SeedsDiffer => "SeedsDiffer",
            Reason::WrongCoupons => "WrongCoupons",
        }
    }
}

/// What a refusal's place is the index of.
#[derive(Clone, Copy, PartialEq, Eq, PartialOrd, Ord, Hash, Debug)]
pub enum PlaceOf {
    /// A pair of a list or of a stream.
    Pair,
    /// A byte of a window.
    Byte,
    /// A symbol of a book.
    Symbol,
    /// A row of a matrix or window.
    Row,
    /// An item of a list for a table.
    Item,
}

impl fmt::Display for PlaceOf {
    fn fmt(&self, f: &mut fmt::Formatter<'_>) -> fmt::Result {
        f.write_str(match self {
            PlaceOf::Pair => "pair",
            PlaceOf::Byte => "byte",
            PlaceOf::Symbol => "symbol",
            PlaceOf::Row => "row",
            PlaceOf::Item => "item",
        })
    }
}

/// A refusal. Its `Display` says all of it in plain words: `refused (6): the stream ends inside a read, at pair 17, bit 345`.
///
/// Equal refusals have the same reason, place and bit position and are told alike.
#[derive(Clone, Copy, PartialEq, Eq, Hash, Debug)]
pub struct Refused {
    /// Why.
    pub reason: Reason,
    /// The index of the pair, byte, symbol, row or item; 0 where there is none, which [`Refused::place_of`] tells apart.
    pub place: u64,
    /// The position in the stream, for a reader's 6 to 10: of 6 the first bit of the look that failed, else the bit after the pair. 0 elsewhere.
    pub bit: u64,
    telling: Telling,
}

impl Refused {
    pub(crate) fn new(reason: Reason, place: u64, bit: u64, telling: Telling) -> Self {
        Self {
            reason,
            place,
            bit,
            telling,
        }
    }

    /// The refusal number, 1 to 17.
    pub fn number(&self) -> u32 {
        self.reason.number()
    }

    /// The reason's name, as in docs/REFUSALS.md.
    pub fn name(&self) -> &'static str {
        self.reason.name()
    }

    /// What the place is the index of; none where the refusal has no place.
    pub fn place_of(&self) -> Option<PlaceOf> {
        self.telling.place_of
    }

    /// Whether a reader gave it, so that `bit` is a position in the stream.
    pub fn has_bit(&self) -> bool {
        self.telling.has_bit
    }
}

impl fmt::Display for Refused {
    fn fmt(&self, f: &mut fmt::Formatter<'_>) -> fmt::Result {
        write!(f, "refused ({}): {}", self.number(), self.telling.words)?;
        if let Some(place_of) = self.telling.place_of {
            write!(f, ", at {place_of} {}", self.place)?;
        }
        if self.telling.has_bit {
            write!(f, ", bit {}", self.bit)?;
        }
        Ok(())
    }
}

impl Error for Refused {}

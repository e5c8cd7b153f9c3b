//! How a refusal is told, by the call that gave it: in which words, and what its place is the index of.
//!
//! The library hands back a number and a place; what the place counts depends on the call, and in a few calls on what was lent. Nothing here
//! decides an outcome: it only finds words for one.

use crate::PlaceOf;
use crate::RESERVED;
use crate::Reason;
use crate::numbers::determine_correct_offset;

#[derive(Clone, Copy, PartialEq, Eq, Hash, Debug)]
pub(crate) struct Telling {
    pub words: &'static str,
    pub place_of: Option<PlaceOf>,
    pub has_bit: bool,
}

impl Telling {
    fn at(place_of: PlaceOf, words: &'static str) -> Self {
        Self {
            words,
            place_of: Some(place_of),
            has_bit: false,
        }
    }

    fn nowhere(words: &'static str) -> Self {
        Self {
            words,
            place_of: None,
            has_bit: false,
        }
    }

    fn with_bit(self) -> Self {
        Self {
            has_bit: true,
            ..self
        }
    }
}

/// Where neither the call nor what was lent changes the words.
fn plain(reason: Reason) -> Telling {
    Telling::nowhere(match reason {
        Reason::LgOutside => "lg_k is outside 4..26",
        Reason::WrongLength => "a lent part has the wrong length",
        Reason::WrongBook => "the book fails the check",
        Reason::TooManyPairs => "there are more than 2^28 pairs",
        Reason::NoRoom => "the output is shorter than needed",
        Reason::StreamEnds => "the stream ends inside a read",
        Reason::RowStepTooLarge => "the row step is 2^32 or more",
        Reason::RowNotBelow => "the row is not below k",
        Reason::ColumnNotBelow => "the column is not below 64",
        Reason::Reserved => "the reserved number 4294967295",
        Reason::NotAbove => "the pair is not above the one before",
        Reason::ItemNotBelow => "the item is not below 2^(valid bits)",
        Reason::CannotGrow => {
            "the table must grow, but its new lg would pass 26 or not be below the valid bits"
        }
        Reason::WrongWindow => {
            "a window bit lies past column 63, or a listed pair inside the window's columns"
        }
        Reason::NotLawful => "the lent state is not lawful",
        Reason::SeedsDiffer => "the seeds differ",
        Reason::WrongCoupons => "the stated coupons differ from those held, or exceed 64k",
    })
}

fn plain_at(place_of: PlaceOf, reason: Reason) -> Telling {
    Telling::at(place_of, plain(reason).words)
}

pub(crate) fn of_numbers(reason: Reason, _place: u64) -> Telling {
    match reason {
        Reason::WrongCoupons => Telling::nowhere("the coupons exceed 64k"),
        _ => plain(reason),
    }
}

/// The place 0 of a 3 is a symbol's exactly if that symbol is of wrong shape: the first of wrong shape wins over every other fault.
fn wrong_book(book: &[u16], place: u64, as_a_whole: &'static str) -> Telling {
    let misshapen = |entry: u16| {
        let (length, codeword) = (entry >> 12, entry & 0xfff);
        !(1..=12).contains(&length) || codeword >> length != 0
    };
    if place > 0 || book.first().is_some_and(|&entry| misshapen(entry)) {
        return Telling::at(
            PlaceOf::Symbol,
            "the book has an entry of wrong shape (length 1 to 12, codeword below 2^length)",
        );
    }
    Telling::nowhere(as_a_whole)
}

/// A 3 is told with these words if it is about the book as a whole.
fn of_judged_book(book: &[u16], as_a_whole: &'static str) -> impl FnOnce(Reason, u64) -> Telling {
    move |reason, place| match reason {
        Reason::WrongBook => wrong_book(book, place, as_a_whole),
        _ => plain(reason),
    }
}

pub(crate) fn of_book(book: &[u16]) -> impl FnOnce(Reason, u64) -> Telling {
    of_judged_book(
        book,
        "the book fails the check: some twelve bits begin with no codeword of it, or with two",
    )
}

pub(crate) fn of_book_and_table(book: &[u16]) -> impl FnOnce(Reason, u64) -> Telling {
    of_judged_book(
        book,
        "the book fails the check, or the decoding table is not that book's",
    )
}

pub(crate) fn of_pick(reason: Reason, _place: u64) -> Telling {
    match reason {
        Reason::WrongBook => Telling::nowhere("there is no such phase"),
        _ => plain(reason),
    }
}

pub(crate) fn of_list(reason: Reason, _place: u64) -> Telling {
    match reason {
        Reason::RowNotBelow | Reason::NotAbove | Reason::Reserved => {
            plain_at(PlaceOf::Pair, reason)
        }
        _ => plain(reason),
    }
}

pub(crate) fn of_writing_pairs(book: &[u16]) -> impl FnOnce(Reason, u64) -> Telling {
    |reason, place| match reason {
        Reason::WrongBook => of_book(book)(reason, place),
        _ => of_list(reason, place),
    }
}

/// `read` is what the stream is read into.
pub(crate) fn of_reading(read: PlaceOf, book: &[u16]) -> impl FnOnce(Reason, u64) -> Telling {
    move |reason, place| match reason {
        Reason::StreamEnds
        | Reason::RowStepTooLarge
        | Reason::RowNotBelow
        | Reason::ColumnNotBelow
        | Reason::Reserved => plain_at(read, reason).with_bit(),
        _ => of_book_and_table(book)(reason, place),
    }
}

pub(crate) fn of_table(reason: Reason, _place: u64) -> Telling {
    match reason {
        Reason::NoRoom => Telling::nowhere("the table's region is shorter than needed"),
        _ => plain(reason),
    }
}

pub(crate) fn of_table_build(reason: Reason, place: u64) -> Telling {
    match reason {
        Reason::Reserved | Reason::ItemNotBelow => plain_at(PlaceOf::Item, reason),
        Reason::NotAbove => {
            Telling::at(PlaceOf::Item, "the item stands earlier in the list already")
        }
        _ => of_table(reason, place),
    }
}

pub(crate) fn of_listing(reason: Reason, _place: u64) -> Telling {
    plain(reason)
}

const RESERVED_BIT: &str = "the bit of the reserved number 4294967295 is set";

pub(crate) fn of_matrix(reason: Reason, _place: u64) -> Telling {
    match reason {
        Reason::Reserved => Telling::at(PlaceOf::Row, RESERVED_BIT),
        _ => plain(reason),
    }
}

/// A read sketch as it is lent to expansion and merge.
pub(crate) struct Sketch<'a> {
    pub lg_k: u8,
    pub coupons: u32,
    pub window: &'a [u8],
    pub pairs: &'a [u32],
}

impl Sketch<'_> {
    /// Where any row has a bit past column 63, the window is what a 14 is about, and its place is such a row.
    fn is_past_the_columns(&self, row: u64) -> bool {
        let offset = determine_correct_offset(self.lg_k, self.coupons).unwrap_or(0);
        let byte = self.window.get(row as usize).copied().unwrap_or(0);
        u128::from(byte) << offset >= 1 << 64
    }

    /// A list that holds the reserved number is refused for a pair, so a 10 by the window never has such a pair at its place.
    fn is_reserved(&self, pair: u64) -> bool {
        self.pairs.get(pair as usize) == Some(&RESERVED)
    }
}

pub(crate) fn of_sketch(sketch: Sketch<'_>) -> impl FnOnce(Reason, u64) -> Telling {
    move |reason, place| match reason {
        Reason::Reserved if !sketch.is_reserved(place) => Telling::at(PlaceOf::Row, RESERVED_BIT),
        Reason::WrongWindow if sketch.is_past_the_columns(place) => {
            Telling::at(PlaceOf::Row, "a window bit lies past column 63")
        }
        Reason::WrongWindow => Telling::at(
            PlaceOf::Pair,
            "a listed pair lies inside the window's columns",
        ),
        _ => of_list(reason, place),
    }
}

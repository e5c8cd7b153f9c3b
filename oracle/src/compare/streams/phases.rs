//! The window books of a set, by phase, and windows for them.

use super::inputs::Input;
use super::inputs::Room;
use crate::answer::Answer;
use crate::books::BookSet;
use crate::cases::Kind;
use crate::listed::Listed;
use crate::plain_reading::books::decoding_table;
use crate::plain_reading::numbers;
use crate::random::Random;
use crate::rust;

/// A book with its table, and the way to have the Rust take it.
pub struct Phase<'a> {
    set: &'a BookSet,
    number: u32,
    pub book: &'a [u16],
    pub table: Vec<u16>,
    /// Coupons that have this phase at lg_k 4; they double with k.
    coupons: u32,
}

impl Phase<'_> {
    pub fn coupons(&self, lg: u8) -> u32 {
        self.coupons << (lg.clamp(4, 26) - 4)
    }

    pub fn input(&self, lg: u8, items: &[u8], room: Room) -> Input<u8> {
        Input {
            lg,
            number: self.number,
            items: Listed::of(items),
            room,
            books: self.set.name.clone(),
        }
    }
}

pub fn phases(set: &BookSet) -> impl Iterator<Item = Phase<'_>> {
    set.windows().enumerate().map(move |(number, book)| Phase {
        set,
        number: number as u32,
        book,
        table: decoding_table(book),
        coupons: (0..64)
            .find(|&coupons| numbers::phase(4, coupons) == Answer::accepted(&[number as u64]))
            .expect("every phase has coupons at lg_k 4"),
    })
}

/// Random cases with every book of every set, then chosen ones with those of the first; the Rust has
/// the books of a set while they are tried.
pub fn try_phases(sets: &[BookSet], mut judge: impl FnMut(&Phase, Kind)) {
    for set in sets {
        rust::install(set);
        phases(set).for_each(|phase| judge(&phase, Kind::Random));
    }
    rust::install(&sets[0]);
    phases(&sets[0]).for_each(|phase| judge(&phase, Kind::Chosen));
}

/// A window of one byte, of few, or of any.
pub fn random_window(lg: u8, random: &mut Random) -> Vec<u8> {
    let any = random.number() as u8;
    let choice = random.below(4);
    let byte = |_| match choice {
        0 => any,
        1 => random.number() as u8 & any,
        _ => random.number() as u8,
    };
    (0..1 << lg).map(byte).collect()
}

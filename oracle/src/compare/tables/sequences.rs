//! Long random sequences of inserts and deletes, in which tables fill up, grow, empty and halve.

use super::calls::Calls;
use crate::cases::Kind;
use crate::lent_tables::Table;
use crate::random::Random;

/// Where the items of a sequence lie.
#[derive(Clone, Copy)]
pub enum Lying {
    Anywhere,
    /// Next to a few places, so that clusters are long.
    Together,
    /// At both ends, so that clusters wrap.
    AtEnds,
}

pub const LYINGS: [Lying; 3] = [Lying::Anywhere, Lying::Together, Lying::AtEnds];

impl Lying {
    /// An item for a table of so many slots, which now and then is too large or the reserved number.
    fn item(self, valid: u8, slots: u64, random: &mut Random) -> u32 {
        match random.below(64) {
            0 => random.of_any_length() as u32,
            _ => self.item_below(valid, slots, random),
        }
    }

    /// An item below 2^valid; at 32 valid bits it may be the reserved number.
    pub fn item_below(self, valid: u8, slots: u64, random: &mut Random) -> u32 {
        let limit = 1u64 << valid;
        let places = (slots / 64).max(3);
        let step = random.below(limit.min(128));
        let item = match self {
            Lying::Anywhere => random.below(limit),
            Lying::Together => (limit / places * random.below(places) + step) % limit,
            Lying::AtEnds => match random.below(4) {
                0 => random.below(limit),
                1 => step,
                _ => limit - 1 - step,
            },
        };
        item as u32
    }
}

/// A table in a region of 2^most slots and a few more, and whether it is to fill up or to empty.
struct Sequence {
    table: Table,
    most: u8,
    lying: Lying,
    is_growing: bool,
}

/// So many calls, which start with an empty table of any size that the region has room for.
pub fn judge_sequence(
    calls: &mut Calls,
    valid: u8,
    most: u8,
    lying: Lying,
    steps: usize,
    random: &mut Random,
) {
    let lg = 2 + random.below(u64::from(most) - 1) as u8;
    let length = (1 << most) + random.below(4) as usize;
    let mut sequence = Sequence {
        table: Table::empty(lg, valid, length),
        most,
        lying,
        is_growing: true,
    };
    for step in 0..steps {
        sequence.turn(random);
        sequence.step(calls, random);
        if step % 16 == 0 {
            sequence.look(calls, random);
        }
    }
}

impl Sequence {
    /// A full table tries to take more for a while; an empty one is to fill up soon.
    fn turn(&mut self, random: &mut Random) {
        let is_full = 4 * (self.table.record.items + 1) > 3 << self.most;
        let is_empty = self.table.record.items == 0;
        self.is_growing = match self.is_growing {
            true => !(is_full && random.below(16) == 0),
            false => is_empty && random.below(4) == 0,
        };
    }

    fn step(&mut self, calls: &mut Calls, random: &mut Random) {
        let valid = self.table.record.valid;
        let item = match random.below(4) {
            0 => self.table.any_held(random),
            1 if !self.is_growing => self.lying.item(valid, 1 << self.most, random),
            _ if !self.is_growing => self.table.any_held(random),
            _ => self.lying.item(valid, 1 << self.most, random),
        };
        let does_insert = self.is_growing ^ (random.below(8) == 0);
        self.table = match does_insert {
            true => calls.judge_insert(&self.table, item, Kind::Random),
            false => calls.judge_delete(&self.table, item, Kind::Random),
        };
    }

    fn look(&self, calls: &mut Calls, random: &mut Random) {
        let items = self.table.record.items as usize;
        let room = (items + random.below(4) as usize).saturating_sub(1);
        calls.judge_listings(&self.table, room, Kind::Random);
        if random.below(8) == 0 {
            calls.judge_clear(&self.table, Kind::Random);
        }
    }
}

/// Tables of one lg at the counts where an insert makes them grow and a delete makes them halve, once or
/// down to 4 slots.
pub fn judge_thresholds(calls: &mut Calls, lg: u8, valid: u8) {
    let full = 3 << (lg - 2);
    let absent = u32::MAX >> (32 - u32::from(valid)) & !1;
    for items in [full - 1, full] {
        for length in [1 << lg, (2 << lg) - 1, 2 << lg] {
            let table = Table::at_home(lg, valid, items, length);
            let grown = calls.judge_insert(&table, absent, Kind::Random);
            calls.judge_delete(&grown, 0, Kind::Random);
            calls.judge_listings(&grown, items as usize + 1, Kind::Random);
        }
    }
    for items in [1, 2, 1 << (lg - 2), (1 << (lg - 2)) + 1] {
        let table = Table::at_home(lg, valid, items, 1 << lg);
        let halved = calls.judge_delete(&table, 0, Kind::Random);
        calls.judge_insert(&halved, absent, Kind::Random);
    }
}

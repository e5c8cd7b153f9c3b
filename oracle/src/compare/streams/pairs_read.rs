//! Lists of pairs, read: from streams that were written, damaged copies of them, streams of steps that
//! no writer takes, and any bytes at all.

use super::EXAMPLE;
use super::Effort;
use super::damage;
use super::inputs::Input;
use super::inputs::LONG_STREAM;
use super::inputs::Room;
use super::inputs::lg_outside;
use super::inputs::no_room;
use super::lists::SPREADS;
use super::lists::counts;
use super::lists::random_list;
use super::sides;
use super::steps;
use crate::books::BookSet;
use crate::cases::AgainstRust;
use crate::cases::Class;
use crate::cases::Kind;
use crate::cases::RustAnswers;
use crate::listed::Listed;
use crate::ours;
use crate::plain_reading::books::Coded;
use crate::plain_reading::books::decoding_table;
use crate::plain_reading::numbers::base_bits_of;
use crate::plain_reading::streams as reading;
use crate::plain_reading::streams::MOST_BYTES;
use crate::plain_reading::streams::MOST_PAIRS;
use crate::random::Random;
use crate::rust;
use crate::rust::Said;

const CLASSES: &[Class<Input<u8>>] = &[
    lg_outside(),
    LONG_STREAM,
    Class {
        name: "k + n passes 32 bits",
        sides: "ours refuses 4, the Rust would reserve n numbers and then add in 32 bits",
        holds: |input| input.rows() + u64::from(input.number) > u32::MAX.into(),
    },
    Class {
        name: "a claim of more than 2^28 pairs",
        sides: "ours refuses 4, the Rust would reserve a gigabyte and read",
        holds: |input| u64::from(input.number) > MOST_PAIRS,
    },
    no_room(),
];

/// The streams of one book set, read.
struct Reading<'a> {
    cases: AgainstRust<'a, Input<u8>>,
    set: &'a BookSet,
    table: Vec<u16>,
    random: Random,
}

pub fn compare(sets: &[BookSet], rust_answers: &mut RustAnswers, effort: &Effort) {
    let mut reading = Reading {
        cases: AgainstRust::new("read_pairs", CLASSES, rust_answers),
        set: &sets[0],
        table: vec![],
        random: Random::new(7),
    };
    reading.take_books(&sets[0]);
    reading.judge_chosen();
    reading.judge_zeros(effort.zeros);
    for set in &sets[..2] {
        reading.take_books(set);
        reading.judge_prefixes(effort.step);
    }
    for set in sets {
        reading.take_books(set);
        reading.judge_row_limits();
        for lg in 4..=26 {
            for count in counts(lg, effort.longest_list, &mut reading.random) {
                reading.judge_list(lg, count);
                reading.judge_steps(lg, count.min(60));
            }
            reading.judge_any_bytes(lg);
        }
    }
    if effort.huge {
        reading.take_books(&sets[0]);
        reading.judge_huge();
    }
    reading.cases.finish();
}

impl<'a> Reading<'a> {
    fn take_books(&mut self, set: &'a BookSet) {
        rust::install(set);
        self.set = set;
        self.table = decoding_table(set.pairs());
    }

    /// A stream and a claim, with an output beside what is claimed.
    fn judge(&mut self, lg: u8, count: u32, stream: &[u8], room: Room, kind: Kind) {
        let coded = Coded {
            book: self.set.pairs(),
            table: &self.table,
        };
        let sides = sides::read(
            count as usize,
            room.beside(count as usize).expect("no room is below none"),
            |out| ours::read_pairs(coded, lg, count, stream, out),
            |out| reading::read_pairs(coded, lg, count, stream, out),
            match count {
                0..0x0100_0000 => rust::decode_pairs(stream, count, lg),
                _ => Said::Unasked,
            },
        );
        let input = Input {
            lg,
            number: count,
            items: Listed::of(stream),
            room,
            books: self.set.name.clone(),
        };
        self.cases.judge(input, kind, sides);
    }

    /// Every lg_k; claims around their limits; no pairs.
    fn judge_chosen(&mut self) {
        for lg in 0..=u8::MAX {
            for count in [0, 1, 3, 4] {
                self.judge(lg, count, &EXAMPLE, Room::Exact, Kind::Chosen);
            }
        }
        for lg in 4..=26 {
            let most = MOST_PAIRS as u32;
            let passing = u32::MAX - (1 << lg);
            for count in [most - 1, most, most + 1, passing, passing + 1, u32::MAX] {
                for room in [0, 3] {
                    let room = Room::Less(count as usize - room);
                    self.judge(lg, count, &EXAMPLE, room, Kind::Chosen);
                }
            }
            for length in [0, 3, 4] {
                self.judge(lg, 0, &EXAMPLE[..length], Room::More(length), Kind::Chosen);
            }
            for (length, count) in [(0, 1), (3, 1), (7, 1), (8, 2)] {
                for room in [Room::Less(count as usize), Room::Exact, Room::More(1)] {
                    self.judge(lg, count, &EXAMPLE[..length], room, Kind::Chosen);
                }
            }
        }
    }

    /// Every prefix of 16 bits, and for two pairs every one of 20, then the same bits, to two words.
    fn judge_prefixes(&mut self, step: usize) {
        const AFTER: u64 = 0x583b_9602_d14e_0000;
        for prefix in (0..1u64 << 16).step_by(step) {
            let stream = (AFTER | prefix).to_le_bytes();
            for count in [1, 3] {
                self.judge(4, count, &stream, Room::Exact, Kind::Random);
            }
        }
        for prefix in (0..1u64 << 20).step_by(step) {
            let stream = (AFTER >> 20 << 20 | prefix).to_le_bytes();
            self.judge(4, 2, &stream, Room::Exact, Kind::Random);
        }
    }

    /// What was written, and damaged copies of it; other claims; other rooms.
    fn judge_list(&mut self, lg: u8, count: u64) {
        let spread = SPREADS[self.random.below(3) as usize];
        let pairs = random_list(lg, count, spread, &mut self.random);
        let bits = reading::bits_of_pairs(self.set.pairs(), 1 << lg, &pairs);
        let pad = 10u64.saturating_sub(base_bits_of(1 << lg, count));
        let stream = bits.words();
        let padded = damage::with_other_pad(&stream, bits.count() - pad, &mut self.random);
        let count = count as u32;
        self.judge(lg, count, &padded, Room::More(2), Kind::Random);
        self.judge(lg, count, &stream, Room::Less(1), Kind::Random);
        for claim in [count - 1, count + 1, 2 * count] {
            self.judge(lg, claim, &stream, Room::Exact, Kind::Random);
        }
        for copy in damage::copies(&stream, &mut self.random) {
            self.judge(lg, count, &copy, Room::Exact, Kind::Random);
        }
    }

    /// Steps of any size, lawful or not, and damaged copies.
    fn judge_steps(&mut self, lg: u8, count: u64) {
        let stream = steps::random_stream(self.set.pairs(), lg, count, &mut self.random);
        for copy in damage::copies(&stream, &mut self.random) {
            self.judge(lg, count as u32, &copy, Room::Exact, Kind::Random);
        }
    }

    fn judge_any_bytes(&mut self, lg: u8) {
        for _ in 0..8 {
            let length = self.random.below(64);
            let bytes: Vec<u8> = (0..length).map(|_| self.random.number() as u8).collect();
            let count = self.random.below(40) as u32;
            self.judge(lg, count, &bytes, Room::Exact, Kind::Random);
        }
    }

    /// Row steps around k and around 2^32, with column steps up to 64; and the reserved number.
    fn judge_row_limits(&mut self) {
        for (lg, stream) in steps::around_limits(self.set.pairs()) {
            for count in 1..=2 {
                self.judge(lg, count, &stream, Room::Exact, Kind::Random);
            }
        }
    }

    /// Zeros to the end of a long stream, and to a one in its last looks.
    fn judge_zeros(&mut self, length: usize) {
        let mut stream = vec![0; length];
        for lg in [4, 15, 26] {
            self.judge(lg, 1, &stream, Room::Exact, Kind::Random);
        }
        for (byte, bit) in [(1, 128), (1, 1), (2, 2), (4, 1), (5, 128)] {
            stream[length - byte] = bit;
            for (lg, count) in [(4, 1), (4, 16), (15, 1), (26, 1)] {
                self.judge(lg, count, &stream, Room::Exact, Kind::Random);
            }
            stream[length - byte] = 0;
        }
    }

    /// One byte too many, with pairs that the Rust reads; and as many zeros as a stream may have.
    fn judge_huge(&mut self) {
        let mut stream = vec![0; MOST_BYTES + 1];
        self.judge(4, 1, &stream[..MOST_BYTES], Room::Exact, Kind::Random);
        stream[..EXAMPLE.len()].copy_from_slice(&EXAMPLE);
        for count in [0, 1, 3] {
            self.judge(4, count, &stream, Room::Exact, Kind::Random);
        }
        self.judge(4, 3, &stream[..MOST_BYTES], Room::Exact, Kind::Random);
    }
}

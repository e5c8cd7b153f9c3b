//! Lists of pairs, judged and written.

use super::Effort;
use super::inputs::Input;
use super::inputs::Room;
use super::inputs::lg_outside;
use super::inputs::no_room;
use super::lists::SPREADS;
use super::lists::counts;
use super::lists::random_list;
use super::sides;
use crate::answer::Lent;
use crate::answer::Spoken;
use crate::books::BookSet;
use crate::cases::AgainstReading;
use crate::cases::AgainstRust;
use crate::cases::Class;
use crate::cases::Kind;
use crate::cases::RustAnswers;
use crate::cases::Sides;
use crate::listed::Listed;
use crate::ours;
use crate::plain_reading::pair_lists;
use crate::plain_reading::pair_lists::RESERVED;
use crate::plain_reading::streams as reading;
use crate::random::Random;
use crate::rust;
use crate::rust::Said;

/// The number of the first faulty pair's refusal.
fn fault(input: &Input<u32>) -> u32 {
    let pairs: Vec<u32> = input.items.values().copied().collect();
    pair_lists::judged(input.rows(), &pairs).map_or_else(|refused| refused.number, |()| 0)
}

const CLASSES: &[Class<Input<u32>>] = &[
    lg_outside(),
    Class {
        name: "more than 2^28 pairs",
        sides: "ours refuses 4, the Rust would write them",
        holds: |input| input.items.len() as u64 > reading::MOST_PAIRS,
    },
    Class {
        name: "no pairs",
        sides: "ours writes nothing, the Rust divides by zero",
        holds: |input| input.items.len() == 0,
    },
    Class {
        name: "row not below k",
        sides: "ours refuses 8, the Rust writes it, or panics if a later pair is not above the one before",
        holds: |input| fault(input) == 8,
    },
    Class {
        name: "pair not above the one before",
        sides: "ours refuses 11, the Rust panics",
        holds: |input| fault(input) == 11,
    },
    Class {
        name: "the reserved number",
        sides: "ours refuses 10, the Rust writes it, or panics if another follows",
        holds: |input| fault(input) == 10,
    },
    no_room(),
];

/// The pairs of one book set, written.
struct Writing<'a> {
    write: AgainstRust<'a, Input<u32>>,
    judge: AgainstReading,
    random: Random,
}

pub fn compare(sets: &[BookSet], rust_answers: &mut RustAnswers, effort: &Effort) {
    let mut writing = Writing {
        write: AgainstRust::new("write_pairs", CLASSES, rust_answers),
        judge: AgainstReading::new("judge_pairs"),
        random: Random::new(6),
    };
    rust::install(&sets[0]);
    writing.judge_chosen(&sets[0]);
    writing.judge_twos(&sets[0], effort.step);
    for set in sets {
        rust::install(set);
        for lg in 4..=26 {
            for count in counts(lg, effort.longest_list, &mut writing.random) {
                writing.judge_random(set, lg, count);
            }
        }
    }
    if effort.huge {
        writing.judge_too_many(&sets[0]);
    }
    writing.judge.finish();
    writing.write.finish();
}

impl Writing<'_> {
    /// A list with room for exactly its words, for a byte less, and for more.
    fn judge(&mut self, set: &BookSet, lg: u8, pairs: &[u32], kind: Kind) {
        let input = |room| Input {
            lg,
            number: pairs.len() as u32,
            items: Listed::of(pairs),
            room,
            books: set.name.clone(),
        };
        let judged = pair_lists::judge_pairs(lg, pairs);
        self.judge
            .judge(input(Room::Exact), ours::judge_pairs(lg, pairs), judged);
        let rust = rust::encode_pairs(pairs, lg);
        let needed = match judged.number {
            0 => reading::bits_of_pairs(set.pairs(), 1 << lg, pairs)
                .words()
                .len(),
            _ => 8,
        };
        let more = 1 + self.random.below(9) as usize;
        for room in [Room::Exact, Room::Less(1), Room::More(more)] {
            if let Some(bytes) = room.beside(needed) {
                let sides = written(set, lg, pairs, bytes, rust.clone());
                self.write.judge(input(room), kind, sides);
            }
        }
    }

    fn judge_random(&mut self, set: &BookSet, lg: u8, count: u64) {
        let spread = SPREADS[self.random.below(3) as usize];
        let mut pairs = random_list(lg, count, spread, &mut self.random);
        self.judge(set, lg, &pairs, Kind::Random);
        // One pair of it becomes another, mostly a faulty one; at lg_k 26 no row is beyond k.
        let place = self.random.below(count) as usize;
        pairs[place] = match self.random.below(3) {
            0 => pairs[place.saturating_sub(1)],
            1 if lg < 26 => (self.random.below(64 << lg) + (64 << lg)) as u32,
            1 => RESERVED,
            _ => self.random.below(64 << lg) as u32,
        };
        self.judge(set, lg, &pairs, Kind::Random);
    }

    /// Each class at every lg_k, and the ends of what is lawful.
    fn judge_chosen(&mut self, set: &BookSet) {
        for lg in 0..=u8::MAX {
            for pairs in [&[][..], &[0], &[5, 70, 71], &[63, 64], &[1, 0], &[1023]] {
                self.judge(set, lg, pairs, Kind::Chosen);
            }
        }
        for lg in 4..=26 {
            let (last, beyond) = ((64u64 << lg) - 1, 64u64 << lg);
            for pairs in [
                &[last][..],
                &[beyond],
                &[0, beyond],
                &[0, 0],
                &[64, 63],
                &[1, 2, 2, beyond],
                &[last - 1, last, last],
                &[last, beyond, 0],
            ] {
                let in_32_bits = |pair: &u64| u32::try_from(*pair).ok();
                let pairs: Vec<u32> = pairs.iter().filter_map(in_32_bits).collect();
                self.judge(set, lg, &pairs, Kind::Chosen);
            }
        }
        self.judge(set, 4, &[RESERVED], Kind::Chosen);
        self.judge(set, 4, &(0..1024).collect::<Vec<u32>>(), Kind::Chosen);
        self.judge(set, 4, &(0..=1024).collect::<Vec<u32>>(), Kind::Chosen);
    }

    /// Two pairs of rows 0, 1 and 15 at lg_k 4, every such two or some of them.
    fn judge_twos(&mut self, set: &BookSet, step: usize) {
        let cells = || (0..128).chain(960..1026);
        let twos = cells().flat_map(|one| cells().map(move |other| [one, other]));
        for two in twos.step_by(step) {
            self.judge(set, 4, &two, Kind::Random);
        }
    }

    /// 2^28 + 1 pairs, which are not looked at, and 2^28, of which the second is faulty.
    fn judge_too_many(&mut self, set: &BookSet) {
        let pairs = vec![0; reading::MOST_PAIRS as usize + 1];
        for count in [pairs.len(), pairs.len() - 1] {
            let input = Input {
                lg: 26,
                number: count as u32,
                items: Listed::of(&pairs[..count]),
                room: Room::Exact,
                books: set.name.clone(),
            };
            let sides = written(set, 26, &pairs[..count], 8, Said::Unasked);
            self.write.judge(input, Kind::Random, sides);
        }
    }
}

fn written(
    set: &BookSet,
    lg: u8,
    pairs: &[u32],
    bytes: usize,
    rust: Said<Spoken<u8>>,
) -> Sides<Lent<Vec<u8>>, Spoken<u8>> {
    sides::written(
        bytes,
        |out| ours::write_pairs(set.pairs(), lg, pairs, out),
        |out| reading::write_pairs(set.pairs(), lg, pairs, out),
        rust,
    )
}

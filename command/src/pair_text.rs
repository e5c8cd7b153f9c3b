//! The text of a list of pairs: `lg_k=`, `pairs=`, then `p0=`, `p1=` and so on.

use std::io;
use std::io::Write;

use bridgenook::PlaceOf;
use bridgenook::Refused;
use bridgenook::numbers;

use crate::failure::Failure;
use crate::failure::Told;
use crate::text;
use crate::text::Name;
use crate::text::Text;

/// The line of pair 0.
const FIRST_PAIR_LINE: u64 = 3;

pub struct PairText {
    pub lg_k: u8,
    pub pairs: Vec<u32>,
}

/// How large a list may be.
#[derive(Clone, Copy)]
pub enum Limits {
    /// Those of document 01's program, which has no heap: lg_k up to 12, and 4,096 pairs.
    Program,
    /// The library's own.
    Library,
}

impl Limits {
    fn judge_lg_k(self, lg_k: u8) -> Result<(), Told> {
        match self {
            Limits::Program if lg_k > 12 => Err(Told::new(
                1,
                "lg_k is outside 4..12, all that a report takes",
            )),
            _ => Ok(()),
        }
    }

    fn judge_count(self, lg_k: u8, count: u32) -> Result<(), Told> {
        match self {
            Limits::Program if count > 4096 => Err(Told::new(
                5,
                "there are more than 4096 pairs, all that a report takes",
            )),
            _ => Ok(numbers::most_bits(lg_k, count).map(drop)?),
        }
    }
}

impl PairText {
    /// The list grows with the lines that are there, whatever their number is said to be.
    pub fn read(text: &mut Text<'_>, limits: Limits) -> Result<Self, Failure> {
        let lg_k = text.lg_k()?;
        limits.judge_lg_k(lg_k).map_err(|told| text.refuse(told))?;
        let count = text.number(Name::Alone("pairs"), u32::MAX.into())? as u32;
        limits
            .judge_count(lg_k, count)
            .map_err(|told| text.refuse(told))?;
        let pairs = read_listed(text, count)?;
        text.end()?;
        Ok(Self { lg_k, pairs })
    }

    /// A refusal of this list: the pair's line, where it is about a pair.
    pub fn failure(name: &str, refused: Refused) -> Failure {
        match refused.place_of() {
            Some(PlaceOf::Pair) => {
                Told::from(refused).about_line(name, FIRST_PAIR_LINE + refused.place)
            }
            _ => Told::from(refused).about(name),
        }
    }

    pub fn write(&self, out: &mut dyn Write) -> io::Result<()> {
        writeln!(out, "lg_k={}", self.lg_k)?;
        writeln!(out, "pairs={}", self.pairs.len())?;
        write_listed(out, &self.pairs)
    }
}

/// The list grows with the lines that are there.
pub fn read_listed(text: &mut Text<'_>, count: u32) -> Result<Vec<u32>, Failure> {
    let pairs = text.listed('p', count.into(), u32::MAX.into());
    pairs.map(|pair| Ok(pair? as u32)).collect()
}

pub fn write_listed(out: &mut dyn Write, pairs: &[u32]) -> io::Result<()> {
    text::write_listed(out, 'p', pairs)
}

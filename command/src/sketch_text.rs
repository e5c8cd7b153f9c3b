//! The text of a sketch: `lg_k=`, `seed=`, `coupons=`, `pairs=`, then `p0=` and so on, and if the coupons make it Hybrid or above `w0=` and so on, one line for
//! each of the window's k bytes.

use std::io;
use std::io::Write;

use bridgenook::PlaceOf;
use bridgenook::Reason;
use bridgenook::Refused;
use bridgenook::numbers;
use bridgenook::unions::Source;

use crate::failure::Failure;
use crate::failure::Told;
use crate::pair_text;
use crate::text::Name;
use crate::text::Text;
use crate::window_text;

const LG_K_LINE: u64 = 1;
const SEED_LINE: u64 = 2;
const COUPONS_LINE: u64 = 3;
const FIRST_PAIR_LINE: u64 = 5;

pub struct SketchText {
    pub source: Source,
    /// Of no bytes if the sketch is Empty or Sparse.
    pub window: Vec<u8>,
    pub pairs: Vec<u32>,
}

impl SketchText {
    pub fn read(text: &mut Text<'_>) -> Result<Self, Failure> {
        let source = read_source(text)?;
        let count = text.number(Name::Alone("pairs"), u32::MAX.into())? as u32;
        let pairs = pair_text::read_listed(text, count)?;
        let window = read_window(text, source)?;
        text.end()?;
        Ok(Self {
            source,
            window,
            pairs,
        })
    }

    pub fn write(&self, out: &mut dyn Write) -> io::Result<()> {
        let Source {
            lg_k,
            seed,
            coupons,
        } = self.source;
        writeln!(out, "lg_k={lg_k}\nseed={seed}\ncoupons={coupons}")?;
        writeln!(out, "pairs={}", self.pairs.len())?;
        pair_text::write_listed(out, &self.pairs)?;
        window_text::write_bytes(out, &self.window)
    }

    /// A refusal of this sketch, with the line that it is about, where that is known.
    pub fn failure(&self, name: &str, refused: Refused) -> Failure {
        match self.line_of(refused) {
            Some(line) => Told::from(refused).about_line(name, line),
            None => Told::from(refused).about(name),
        }
    }

    fn line_of(&self, refused: Refused) -> Option<u64> {
        let first_row_line = FIRST_PAIR_LINE + self.pairs.len() as u64;
        match (refused.place_of(), refused.reason) {
            (Some(PlaceOf::Pair), _) => Some(FIRST_PAIR_LINE + refused.place),
            (Some(PlaceOf::Row), _) => Some(first_row_line + refused.place),
            (_, Reason::LgOutside) => Some(LG_K_LINE),
            (_, Reason::SeedsDiffer) => Some(SEED_LINE),
            (_, Reason::WrongCoupons) => Some(COUPONS_LINE),
            _ => None,
        }
    }
}

fn read_source(text: &mut Text<'_>) -> Result<Source, Failure> {
    let lg_k = text.lg_k()?;
    let seed = text.number(Name::Alone("seed"), u64::MAX)?;
    let coupons = text.number(Name::Alone("coupons"), u32::MAX.into())? as u32;
    // It is the offset that refuses coupons over 64k.
    numbers::determine_correct_offset(lg_k, coupons).map_err(|refused| text.refuse(refused))?;
    Ok(Source {
        lg_k,
        seed,
        coupons,
    })
}

/// Whether there is one goes by what the sketch says of itself.
fn read_window(text: &mut Text<'_>, source: Source) -> Result<Vec<u8>, Failure> {
    let Source { lg_k, coupons, .. } = source;
    let flavor =
        numbers::determine_flavor(lg_k, coupons).map_err(|refused| text.refuse(refused))?;
    let rows = match flavor.has_window() {
        true => numbers::rows(lg_k).map_err(|refused| text.refuse(refused))?,
        false => 0,
    };
    text.explain(format_args!(
        "with lg_k={lg_k} and coupons={coupons} the sketch is {flavor} and has {rows} window lines"
    ));
    window_text::read_bytes(text, rows)
}

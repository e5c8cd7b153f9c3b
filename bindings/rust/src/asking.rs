//! How a call is asked, and its answer told apart into values and a refusal.
//!
//! Safety of every `unsafe` block in this crate: numbers pass as themselves, and a slice as its pointer and its length. A Rust slice is aligned,
//! never null and valid for its items, a `&mut` one lies apart from everything else that is lent, and the answer is [`ask`]'s own. That is all
//! that the calls ask for (see [`crate::raw`]); the library reads and writes nothing outside of what it is lent.

use crate::Reason;
use crate::Refused;
use crate::raw::Filled;
use crate::telling::Telling;

/// The values of an accepted call, zeros after the last.
pub(crate) type Values = [u64; 6];

/// `telling` says how the call at hand means a refusal by this reason and place.
pub(crate) fn ask(
    telling: impl FnOnce(Reason, u64) -> Telling,
    call: impl FnOnce(*mut Filled) -> u32,
) -> Result<Values, Refused> {
    let (number, [place, bit, values @ ..]) = answer_of(call);
    if number == 0 {
        return Ok(values);
    }
    let reason = Reason::of_number(number).unwrap_or_else(|| {
        panic!("libbridgenook.a refuses by {number}, which these bindings do not know")
    });
    Err(Refused::new(reason, place, bit, telling(reason, place)))
}

/// The one value of a call that never refuses.
pub(crate) fn ask_total(call: impl FnOnce(*mut Filled) -> u32) -> u64 {
    let (_, [_, _, value, ..]) = answer_of(call);
    value
}

fn answer_of(call: impl FnOnce(*mut Filled) -> u32) -> (u32, Filled) {
    let mut filled = [0; 8];
    let number = call(&mut filled);
    (number, filled)
}

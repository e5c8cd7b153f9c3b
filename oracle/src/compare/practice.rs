//! The practice books, and the constant decoding table of the one for pairs.

use super::LENGTHS;
use crate::answer::Answer;
use crate::answer::Lent;
use crate::answer::lend;
use crate::cases::AgainstReading;
use crate::ours;
use crate::plain_reading::practice as reading;

pub fn compare() {
    compare_constant(
        "practice_pair_book",
        ours::practice_pair_book,
        reading::practice_pair_book,
    );
    compare_constant(
        "practice_window_book",
        ours::practice_window_book,
        reading::practice_window_book,
    );
    compare_constant(
        "practice_pair_table",
        ours::practice_pair_table,
        reading::practice_pair_table,
    );
}

/// Lends memory of every length, full of one number, since a refusal must leave it.
fn compare_constant(
    name: &'static str,
    ours: fn(&mut [u16]) -> Answer,
    reading: fn(&[u16]) -> Lent<Vec<u16>>,
) {
    let mut cases = AgainstReading::new(name);
    for length in LENGTHS {
        for filling in [0, 0x5aa5, u16::MAX] {
            let memory = vec![filling; length];
            let input = format_args!("{length} entries of {filling}");
            cases.judge(input, lend(&memory, !filling, ours), reading(&memory));
        }
    }
    cases.finish();
}

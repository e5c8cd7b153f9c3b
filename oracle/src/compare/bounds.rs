//! Rows, against document 01; and our own rules beside it: the bound on a stream of n pairs, and the
//! ways between bits and words.

use super::thresholds;
use crate::answer::Answer;
use crate::cases::AgainstReading;
use crate::ours;
use crate::plain_reading::numbers as reading;
use crate::random::Random;

pub fn compare(random_cases: u64) {
    compare_rows();
    compare_most_bits(random_cases);
    // A bit count is a whole number of words at each multiple of 32, and all bits of so many words
    // pass 64 bits at 2^59 words.
    compare_unit(
        "words_for",
        ours::words_for,
        reading::words_for,
        random_cases,
    );
    compare_unit("bits_in", ours::bits_in, reading::bits_in, random_cases);
}

fn compare_rows() {
    let mut cases = AgainstReading::new("rows");
    for lg in 0..=u8::MAX {
        cases.judge(lg, ours::rows(lg), reading::rows(lg));
    }
    cases.finish();
}

fn compare_most_bits(random_cases: u64) {
    let mut cases = AgainstReading::of_our_own("most_bits");
    let mut judge = |lg: u8, pairs: u32| {
        let input = format_args!("{lg} {pairs}");
        cases.judge(
            input,
            ours::most_bits(lg, pairs),
            reading::most_bits(lg, pairs),
        );
    };
    for lg in 0..=u8::MAX {
        for pairs in thresholds::pairs(lg) {
            judge(lg, pairs);
        }
    }
    let mut random = Random::new(2);
    for _ in 0..random_cases {
        let pairs = random.of_any_length() as u32;
        judge(random.below(32) as u8, pairs);
    }
    cases.finish();
}

fn compare_unit(
    name: &'static str,
    ours: fn(u64) -> Answer,
    reading: fn(u64) -> Answer,
    random_cases: u64,
) {
    let mut cases = AgainstReading::of_our_own(name);
    let mut judge = |count: u64| cases.judge(count, ours(count), reading(count));
    let around_powers = (0..64).flat_map(|lg| {
        let power = 1u64 << lg;
        power.saturating_sub(33)..=power.saturating_add(33)
    });
    let greatest = u64::MAX - 66..=u64::MAX;
    for count in (0..=4096).chain(around_powers).chain(greatest) {
        judge(count);
    }
    let mut random = Random::new(3);
    for _ in 0..random_cases {
        judge(random.of_any_length());
    }
    cases.finish();
}

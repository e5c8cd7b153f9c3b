//! Matrices at lg_k 26, half a gigabyte each: counts, and refusal 10, which nothing smaller has.

use super::calls::Calls;
use crate::answer::Answer;
use crate::answer::Outcome;
use crate::cases::AgainstReading;
use crate::cases::Kind;
use crate::growing::SEED;
use crate::lent_matrices::Sketch;
use crate::lent_matrices::Union;
use crate::ours::unions as ours;
use crate::plain_reading::pair_lists::RESERVED;
use crate::plain_reading::unions as reading;
use crate::rust::Said;
use crate::rust::unions as rust;

const LG: u8 = 26;
const ROWS: usize = 1 << LG;
/// The reserved number's column.
const LAST_COLUMN: u64 = 1 << 63;

/// All ones, all but the reserved number's, that one alone, and one word too many or too few.
pub fn judge_counts(calls: &mut Calls) {
    let mut matrix = vec![u64::MAX; ROWS];
    calls.judge_count(LG, &matrix, Kind::Random);
    calls.judge_count(LG, &matrix[1..], Kind::Random);
    matrix[ROWS - 1] ^= LAST_COLUMN;
    calls.judge_count(LG, &matrix, Kind::Random);
    let mut matrix = vec![0; ROWS + 1];
    matrix[ROWS - 1] = LAST_COLUMN;
    calls.judge_count(LG, &matrix, Kind::Random);
    calls.judge_count(LG, &matrix[..ROWS], Kind::Random);
    matrix[ROWS - 1] = LAST_COLUMN / 2;
    calls.judge_count(LG, &matrix[..ROWS], Kind::Random);
}

/// Refusal 10 of split, expansion and merge, beside those before and after it.
pub fn judge_reserved() {
    let mut cases = AgainstReading::new("split, expand and merge at lg_k 26");
    judge_splits(&mut cases);
    judge_sources(&mut cases);
    cases.finish();
    ask_rust();
}

fn judge_splits(cases: &mut AgainstReading) {
    let mut matrix = vec![0; ROWS];
    matrix[ROWS - 1] = LAST_COLUMN;
    for (bytes, room) in [(ROWS, 0), (ROWS, 1), (ROWS - 1, 1)] {
        let (mut window, mut pairs) = (vec![7; bytes], vec![7; room]);
        let ours = ours::split(LG, &matrix, &mut window, &mut pairs);
        assert!(window.iter().all(|&byte| byte == 7) && pairs.iter().all(|&pair| pair == 7));
        let reading = reading::split_answer(LG, &matrix, bytes, room);
        cases.judge(
            format_args!("the reserved bit, window of {bytes}, room {room}"),
            ours,
            reading,
        );
    }
}

/// So many coupons, one window byte other than 0, in the last row, and these pairs.
fn source(coupons: u64, byte: u8, pairs: &[u32]) -> Sketch {
    let mut window = match reading::has_window(LG, coupons) {
        true => vec![0; ROWS],
        false => vec![],
    };
    if let Some(last) = window.last_mut() {
        *last = byte;
    }
    Sketch {
        lg: LG,
        coupons: coupons as u32,
        window,
        pairs: pairs.to_vec(),
    }
}

/// Coupons whose offset is 56 or 57.
const AT_56: u64 = 19 * (1 << 23) + (56 << 26);
const AT_57: u64 = 19 * (1 << 23) + (57 << 26);

/// The reserved number listed, and its bit in the window, with faults that are told before and after.
fn judge_sources(cases: &mut AgainstReading) {
    let sources = [
        source(1, 0, &[RESERVED]),
        source(2, 0, &[5, 5, RESERVED]),
        source(2, 0, &[5, RESERVED, 5]),
        source(0, 0, &[RESERVED]),
        source(AT_56, 128, &[]),
        source(AT_56, 128, &[RESERVED]),
        source(AT_56, 128, &[RESERVED - 1]),
        source(AT_57, 128, &[]),
        source(AT_57, 64, &[]),
    ];
    let mut matrix = vec![0; ROWS];
    for source in &sources {
        let ours = ours::expand(source, &mut matrix);
        judge_refused(cases, source, ours, reading::expand_answer(source, ROWS));
        for seed in [SEED, SEED + 1] {
            matrix = judge_merge(cases, matrix, source, seed);
        }
        assert!(
            matrix.iter().all(|&word| word == 0),
            "a refusal changes nothing"
        );
    }
    // A union with the reserved bit is not lawful.
    matrix[ROWS - 1] = LAST_COLUMN;
    judge_merge(cases, matrix, &sources[0], SEED);
}

/// Into a union with this matrix, which is handed back: it is too large to copy.
fn judge_merge(
    cases: &mut AgainstReading,
    mut matrix: Vec<u64>,
    source: &Sketch,
    seed: u64,
) -> Vec<u64> {
    let ours = ours::merge((LG, LG, SEED), &mut matrix, source, seed);
    let union = Union {
        lg: LG,
        present: LG,
        seed: SEED,
        matrix,
    };
    let reading = reading::merge_answer(&union, source, seed);
    judge_refused(cases, source, ours, reading);
    union.matrix
}

fn judge_refused(cases: &mut AgainstReading, source: &Sketch, ours: Answer, reading: Answer) {
    assert!(reading.number != 0, "each has a fault");
    cases.judge(source, ours, reading);
}

/// What the Rust does with the reserved number. Its inputs are too long to be told beside the others.
fn ask_rust() {
    let listed = source(1, 0, &[RESERVED]);
    let said = rust::expand(&listed).map(|said| said.say());
    assert!(
        said.is(&"refuses 11".to_string()),
        "the Rust lists the reserved number"
    );
    println!(
        "expand, merge: the reserved number listed: ours refuses 10, the Rust calls it a duplicate"
    );
    let held = source(AT_56, 128, &[]);
    assert!(
        matches!(rust::expand(&held), Said::Value(_)),
        "the Rust refuses the reserved bit"
    );
    println!("expand, merge: the reserved bit in a window: ours refuses 10, the Rust takes it");
    // Pinned, so that the Rust has a matrix.
    let mut matrix = vec![1; ROWS];
    matrix[ROWS - 1] |= LAST_COLUMN;
    let ours = ours::split(LG, &matrix, &mut vec![0; ROWS], &mut [0]);
    assert!(ours == Answer::refused_at(10, ROWS as u64 - 1));
    let said = rust::split(LG, &matrix);
    assert!(
        matches!(said, Said::Panic),
        "the Rust splits the reserved bit"
    );
    println!("split: the reserved bit: ours refuses 10, the Rust panics");
}

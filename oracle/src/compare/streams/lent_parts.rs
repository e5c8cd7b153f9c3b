//! Wrong lent parts, which the Rust is not lent, alone and together with every other fault: so the order
//! of the refusals shows.

use super::EXAMPLE;
use super::sides::OUT;
use crate::answer::lend;
use crate::books::BookSet;
use crate::cases::AgainstReading;
use crate::ours;
use crate::plain_reading::books::Coded;
use crate::plain_reading::books::decoding_table;
use crate::plain_reading::streams as reading;
use crate::plain_reading::streams::MOST_BYTES;
use crate::plain_reading::streams::MOST_PAIRS;

const LG_KS: [u8; 4] = [3, 4, 26, 27];

/// What is lent with a word about it.
type Named<T> = (&'static str, Vec<T>);

/// A book as it is, and copies of another length, of wrong shape, and with one codeword twice.
fn books(right: &[u16], other: &[u16]) -> Vec<Named<u16>> {
    let changed = |place: usize, entry: u16| {
        let mut book = right.to_vec();
        book[place] = entry;
        book
    };
    let short = &right[..right.len() - 1];
    vec![
        ("right", right.to_vec()),
        ("empty", vec![]),
        ("short", short.to_vec()),
        ("short and misshapen", [&[0], &short[1..]].concat()),
        ("long", [right, &right[..1]].concat()),
        ("of the other size", other.to_vec()),
        ("misshapen at 7", changed(7, 0)),
        ("with symbol 3 as 4", changed(3, right[4])),
    ]
}

fn tables(right: &[u16], other: &[u16]) -> Vec<Named<u16>> {
    let table = decoding_table(right);
    let mut changed = table.clone();
    changed[4095] ^= 1;
    vec![
        ("empty", vec![]),
        ("short", table[..4095].to_vec()),
        ("long", [&table[..], &[0]].concat()),
        ("of the other book", decoding_table(other)),
        ("changed at the end", changed),
        ("right", table),
    ]
}

pub fn compare(sets: &[BookSet]) {
    let mut write_pairs = AgainstReading::new("write_pairs, wrong parts");
    let mut read_pairs = AgainstReading::new("read_pairs, wrong parts");
    let mut write_window = AgainstReading::new("write_window, wrong parts");
    let mut read_window = AgainstReading::new("read_window, wrong parts");
    // Reserved, but never looked at.
    let too_long = vec![0; MOST_BYTES + 1];
    for set in &sets[..3] {
        let window_book = set.windows().next().unwrap();
        for (name, book) in books(set.pairs(), window_book) {
            let name = format!("{}, book {name}", set.name);
            judge_write_pairs(&mut write_pairs, &name, &book);
            for (table_name, table) in tables(set.pairs(), window_book) {
                let name = format!("{name}, table {table_name}");
                let (book, table) = (&book[..], &table[..]);
                judge_read_pairs(&mut read_pairs, &name, Coded { book, table }, &too_long);
            }
        }
        for (name, book) in books(window_book, set.pairs()) {
            let name = format!("{}, book {name}", set.name);
            judge_write_window(&mut write_window, &name, &book);
            for (table_name, table) in tables(window_book, set.pairs()) {
                let name = format!("{name}, table {table_name}");
                let (book, table) = (&book[..], &table[..]);
                judge_read_window(&mut read_window, &name, Coded { book, table }, &too_long);
            }
        }
    }
    for cases in [write_pairs, read_pairs, write_window, read_window] {
        cases.finish();
    }
}

fn judge_write_pairs(cases: &mut AgainstReading, name: &str, book: &[u16]) {
    for lg in LG_KS {
        for pairs in [&[][..], &[5, 70, 71], &[5, 1024], &[5, 5], &[u32::MAX]] {
            for room in [0, 1, 7, 40] {
                let out = vec![OUT; room];
                let ours = lend(&out, !OUT, |out| ours::write_pairs(book, lg, pairs, out));
                let reading = reading::write_pairs(book, lg, pairs, &out);
                let input = format_args!("{name}, lg_k {lg}, pairs {pairs:?}, room {room}");
                cases.judge(input, ours, reading);
            }
        }
    }
}

fn judge_read_pairs(cases: &mut AgainstReading, name: &str, coded: Coded, too_long: &[u8]) {
    let zeros = [0; 12];
    for lg in LG_KS {
        for stream in [&[][..], &EXAMPLE, &[0xff; 8], &zeros, too_long] {
            for count in [0, 3, MOST_PAIRS as u32, MOST_PAIRS as u32 + 1] {
                for room in [0, 2, 3, 5] {
                    let out = vec![u32::from(OUT); room];
                    let ours = lend(&out, 0, |out| {
                        ours::read_pairs(coded, lg, count, stream, out)
                    });
                    let reading = reading::read_pairs(coded, lg, count, stream, &out);
                    let bytes = stream.len();
                    let input = format_args!(
                        "{name}, lg_k {lg}, {bytes} bytes, claim {count}, room {room}"
                    );
                    cases.judge(input, ours, reading);
                }
            }
        }
    }
}

fn judge_write_window(cases: &mut AgainstReading, name: &str, book: &[u16]) {
    for lg in [3, 4, 5, 27] {
        for length in [0, 8, 15, 16, 17, 32] {
            for room in [0, 5, 100] {
                let (window, out) = (vec![3; length], vec![OUT; room]);
                let ours = lend(&out, !OUT, |out| ours::write_window(book, lg, &window, out));
                let reading = reading::write_window(book, lg, &window, &out);
                let input = format_args!("{name}, lg_k {lg}, {length} bytes, room {room}");
                cases.judge(input, ours, reading);
            }
        }
    }
}

fn judge_read_window(cases: &mut AgainstReading, name: &str, coded: Coded, too_long: &[u8]) {
    for lg in [3, 4, 5, 27] {
        for length in [0, 8, 15, 16, 17, 32] {
            for stream in [&[][..], &[0x35; 13], &[0x35; 80], too_long] {
                let window = vec![OUT; length];
                let ours = lend(&window, !OUT, |window| {
                    ours::read_window(coded, lg, stream, window)
                });
                let reading = reading::read_window(coded, lg, stream, &window);
                let bytes = stream.len();
                let input = format_args!("{name}, lg_k {lg}, window {length}, {bytes} bytes");
                cases.judge(input, ours, reading);
            }
        }
    }
}

//! Windows, read with the book of every phase: from streams that were written, and damaged copies.

use super::Effort;
use super::damage;
use super::inputs::Input;
use super::inputs::LONG_STREAM;
use super::inputs::Room;
use super::inputs::lg_outside;
use super::phases::Phase;
use super::phases::phases;
use super::phases::random_window;
use super::phases::try_phases;
use super::sides;
use crate::books::BookSet;
use crate::cases::AgainstRust;
use crate::cases::Class;
use crate::cases::Kind;
use crate::cases::RustAnswers;
use crate::ours;
use crate::plain_reading::books::Coded;
use crate::plain_reading::streams as reading;
use crate::plain_reading::streams::MOST_BYTES;
use crate::random::Random;
use crate::rust;
use crate::rust::Said;

const CLASSES: &[Class<Input<u8>>] = &[
    lg_outside(),
    LONG_STREAM,
    Class {
        name: "lent window not of k bytes",
        sides: "ours refuses 2, the Rust makes its own",
        holds: |input| input.room != Room::Exact,
    },
];

type Cases<'a> = AgainstRust<'a, Input<u8>>;

pub fn compare(sets: &[BookSet], rust_answers: &mut RustAnswers, effort: &Effort) {
    let mut random = Random::new(9);
    let mut cases = AgainstRust::new("read_window", CLASSES, rust_answers);
    try_phases(sets, |phase, kind| match kind {
        Kind::Random => judge_random(&mut cases, phase, &mut random),
        Kind::Chosen => judge_chosen(&mut cases, phase),
    });
    if effort.huge {
        judge_huge(&mut cases, &phases(&sets[0]).next().unwrap());
    }
    cases.finish();
}

/// A stream, with a lent window beside k bytes.
fn judge(cases: &mut Cases, phase: &Phase, lg: u8, stream: &[u8], room: Room, kind: Kind) {
    let coded = Coded {
        book: phase.book,
        table: &phase.table,
    };
    let rows = if lg <= 26 { 1 << lg } else { 16 };
    let sides = sides::read(
        rows,
        room.beside(rows).expect("no window is below none"),
        |window| ours::read_window(coded, lg, stream, window),
        |window| reading::read_window(coded, lg, stream, window),
        match lg {
            0..=26 => rust::decode_window(stream, lg, phase.coupons(lg)),
            _ => Said::Unasked,
        },
    );
    cases.judge(phase.input(lg, stream, room), kind, sides);
}

fn judge_random(cases: &mut Cases, phase: &Phase, random: &mut Random) {
    for lg in 4..=12 {
        let bits = reading::bits_of_window(phase.book, &random_window(lg, random));
        let stream = bits.words();
        let padded = damage::with_other_pad(&stream, bits.count() - 11, random);
        judge(cases, phase, lg, &padded, Room::Exact, Kind::Random);
        for copy in damage::copies(&stream, random) {
            judge(cases, phase, lg, &copy, Room::Exact, Kind::Random);
        }
    }
}

/// Every lg_k, but those whose windows are long; lent windows beside k bytes.
fn judge_chosen(cases: &mut Cases, phase: &Phase) {
    let stream = reading::bits_of_window(phase.book, &[0, 1, 2, 3].repeat(4)).words();
    for lg in (0..=16).chain(27..=u8::MAX) {
        for length in [0, 4, stream.len()] {
            let stream = &stream[..length];
            judge(cases, phase, lg, stream, Room::Exact, Kind::Chosen);
        }
    }
    for room in [Room::Less(16), Room::Less(1), Room::More(1), Room::More(16)] {
        judge(cases, phase, 4, &stream, room, Kind::Chosen);
    }
}

/// As many bytes as a stream may have, and one more.
fn judge_huge(cases: &mut Cases, phase: &Phase) {
    let stream = vec![0; MOST_BYTES + 1];
    for length in [MOST_BYTES, MOST_BYTES + 1] {
        let stream = &stream[..length];
        judge(cases, phase, 4, stream, Room::Exact, Kind::Random);
    }
}

//! Windows, written with the book of every phase.

use super::inputs::Input;
use super::inputs::Room;
use super::inputs::lg_outside;
use super::inputs::no_room;
use super::phases::Phase;
use super::phases::phases;
use super::phases::random_window;
use super::phases::try_phases;
use super::sides;
use crate::books::BookSet;
use crate::cases::AgainstRust;
use crate::cases::Class;
use crate::cases::Kind;
use crate::cases::RustAnswers;
use crate::ours;
use crate::plain_reading::streams as reading;
use crate::random::Random;
use crate::rust;

const CLASSES: &[Class<Input<u8>>] = &[
    lg_outside(),
    Class {
        name: "window not of k bytes",
        sides: "ours refuses 2, the Rust writes it",
        holds: |input| input.items.len() as u64 != input.rows(),
    },
    no_room(),
];

type Cases<'a> = AgainstRust<'a, Input<u8>>;

pub fn compare(sets: &[BookSet], rust_answers: &mut RustAnswers) {
    let mut random = Random::new(8);
    let mut cases = AgainstRust::new("write_window", CLASSES, rust_answers);
    try_phases(sets, |phase, kind| match kind {
        Kind::Random => judge_random(&mut cases, phase, &mut random),
        Kind::Chosen => judge_chosen(&mut cases, phase),
    });
    let long = random_window(20, &mut random);
    let phase = phases(&sets[0]).next().unwrap();
    judge(&mut cases, &phase, 20, &long, Kind::Random);
    cases.finish();
}

/// A window with room for exactly its words, for a byte less, and for more.
fn judge(cases: &mut Cases, phase: &Phase, lg: u8, window: &[u8], kind: Kind) {
    let rust = rust::encode_window(window, lg, phase.coupons(lg));
    let needed = reading::bits_of_window(phase.book, window).words().len();
    for room in [Room::Exact, Room::Less(1), Room::More(7)] {
        let sides = sides::written(
            room.beside(needed).expect("a window is never no words"),
            |out| ours::write_window(phase.book, lg, window, out),
            |out| reading::write_window(phase.book, lg, window, out),
            rust.clone(),
        );
        cases.judge(phase.input(lg, window, room), kind, sides);
    }
}

fn judge_random(cases: &mut Cases, phase: &Phase, random: &mut Random) {
    for lg in 4..=12 {
        for _ in 0..2 {
            let window = random_window(lg, random);
            judge(cases, phase, lg, &window, Kind::Random);
        }
    }
    for _ in 0..16 {
        let byte = random.number() as u8;
        judge(cases, phase, 4, &[byte; 16], Kind::Random);
    }
}

/// Every lg_k with a window of none and one of 16 bytes; lengths beside k.
fn judge_chosen(cases: &mut Cases, phase: &Phase) {
    for lg in 0..=u8::MAX {
        judge(cases, phase, lg, &[], Kind::Chosen);
        judge(cases, phase, lg, &[0; 16], Kind::Chosen);
    }
    for length in [15, 17, 32] {
        judge(cases, phase, 4, &vec![0; length], Kind::Chosen);
    }
}

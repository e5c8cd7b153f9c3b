//! Document 01's worked numbers, and those that its program writes.

mod practice;

use bridgenook::Bits;
use bridgenook::Flavor;
use bridgenook::RESERVED;
use bridgenook::Reason;
use bridgenook::Words;
use bridgenook::numbers;
use bridgenook::streams;
use bridgenook::tables;
use bridgenook::units;

#[test]
fn flavors_and_offsets_at_lg_k_4() {
    let flavors = [
        (0, Flavor::Empty),
        (1, Flavor::Sparse),
        (2, Flavor::Hybrid),
        (7, Flavor::Hybrid),
        (8, Flavor::Pinned),
        (53, Flavor::Pinned),
        (54, Flavor::Sliding),
    ];
    for (coupons, flavor) in flavors {
        assert_eq!(numbers::determine_flavor(4, coupons), Ok(flavor));
    }
    for (coupons, offset) in [(53, 0), (54, 1), (1024, 61)] {
        assert_eq!(numbers::determine_correct_offset(4, coupons), Ok(offset));
    }
}

#[test]
fn phases_at_lg_k_4() {
    for (coupons, phase) in [(11, 16), (12, 17), (36, 21), (37, 6), (39, 7), (48, 0)] {
        assert_eq!(numbers::determine_pseudo_phase(4, coupons), Ok(phase));
    }
}

#[test]
fn practice_entries() {
    let pairs = practice::pair_book();
    assert_eq!(
        [pairs[0], pairs[5], pairs[7], pairs[64]],
        [4097, 36880, 41008, 41968]
    );
    assert_eq!(practice::window_book()[255], 37374);
}

#[test]
fn strides_show_in_the_walk() {
    for (lg, stride) in [(2, 3), (3, 5), (4, 9)] {
        let slots = 1 << lg;
        // Three quarters of the slots, each item at its home, so that the walk is the order of the slots.
        let list: Vec<u32> = (0..slots * 3 / 4).collect();
        let (mut region, mut spare) = (vec![0; slots as usize], vec![0; slots as usize]);
        let mut table = tables::new(lg, lg + 1, &mut region, &mut spare).unwrap();
        for item in &list {
            tables::insert(&mut table, &mut region, &mut spare, 2 * item).unwrap();
        }
        let mut walked = vec![0; list.len()];
        tables::walk(&table, &region, &spare, &mut walked).unwrap();
        let by_rule: Vec<u32> = (0..slots)
            .map(|step| step * stride % slots)
            .filter(|slot| list.contains(slot))
            .map(|slot| 2 * slot)
            .collect();
        assert_eq!(walked, by_rule);
    }
}

#[test]
fn a_table_grows_at_the_fourth_item_and_returns() {
    let (mut region, mut spare) = ([0; 8], [0; 8]);
    let mut table = tables::new(2, 10, &mut region, &mut spare).unwrap();
    for (item, lg) in [(300, 2), (600, 2), (900, 2), (1000, 3)] {
        assert_eq!(
            tables::insert(&mut table, &mut region, &mut spare, item),
            Ok(true)
        );
        assert_eq!(table.lg, lg);
    }
    for item in [600, 1000, 300] {
        assert_eq!(
            tables::delete(&mut table, &mut region, &mut spare, item),
            Ok(true)
        );
    }
    assert_eq!((table.lg, table.items), (2, 1));
    tables::clear(&mut table, &mut region, &mut spare).unwrap();
    assert_eq!((table.lg, table.items, region), (2, 0, [RESERVED; 8]));
}

#[test]
fn the_last_row_of_the_largest_k() {
    let refused = streams::judge_pairs(26, &[64 * 67_108_863 + 63]).unwrap_err();
    assert_eq!((refused.reason, refused.place), (Reason::Reserved, 0));
    assert_eq!(streams::judge_pairs(26, &[64 * 67_108_863 + 62]), Ok(()));
}

#[test]
fn symbol_64_as_a_column_step() {
    // four zeros, 31 in five bits, a one: symbol 64; then no row step, and no base bits for 16 pairs of 16 rows
    let stream = 0b111_1111_0000_u32.to_le_bytes();
    let mut pairs = [7; 16];
    let refused = streams::read_pairs(
        &practice::pair_book(),
        &practice::pair_table(),
        4,
        16,
        &stream,
        &mut pairs,
    );
    assert_eq!(
        refused.unwrap_err().to_string(),
        "refused (9): the column is not below 64, at pair 0, bit 11"
    );
}

#[test]
fn the_programs_example() {
    let mut out = [0; 8];
    let written = streams::write_pairs(&practice::pair_book(), 4, &[5, 70, 71], &mut out).unwrap();
    assert_eq!((written.bits, written.words), (Bits(36), Words(2)));
    assert_eq!(out[..4], 56_754_704_u32.to_le_bytes());
    assert_eq!(out[4..], [0; 4]);
    assert_eq!(numbers::number_of_base_bits(4, 3), Ok(2));
    assert_eq!(numbers::determine_flavor(4, 3), Ok(Flavor::Hybrid));
}

#[test]
fn rows_and_units() {
    assert_eq!(numbers::rows(4), Ok(16));
    assert_eq!(numbers::rows(26), Ok(67_108_864));
    assert_eq!(units::words_for(Bits(33)), Words(2));
    assert_eq!(units::bits_in(Words(2)), Bits(64));
    assert_eq!(units::bits_in(Words(u64::MAX)), Bits(u64::MAX));
    assert_eq!(Words(2).bytes(), 8);
    assert_eq!(Words(u64::MAX).bytes(), u64::MAX);
}

//! What lent memory holds after a refusal, and after an answer that changes nothing.

mod practice;

use bridgenook::RESERVED;
use bridgenook::Reason;
use bridgenook::books;
use bridgenook::streams;
use bridgenook::tables;
use bridgenook::unions;
use bridgenook::unions::Source;

#[test]
fn a_refused_table_fill_leaves_the_table() {
    let mut book = practice::pair_book();
    book[64] = 0;
    let mut table = [7; books::TABLE_ENTRIES];
    assert!(books::fill_table(&book, &mut table).is_err());
    assert_eq!(table, [7; books::TABLE_ENTRIES]);
    assert!(books::practice_pair_table(&mut table[1..]).is_err());
    assert_eq!(table, [7; books::TABLE_ENTRIES]);
}

#[test]
fn a_refused_write_leaves_the_output() {
    let book = practice::pair_book();
    for (pairs, room) in [([5, 70, 70], 8), ([5, 70, 71], 7)] {
        let mut out = vec![7; room];
        assert!(streams::write_pairs(&book, 4, &pairs, &mut out).is_err());
        assert_eq!(out, vec![7; room]);
    }
}

#[test]
fn a_reader_keeps_the_items_before_the_fault() {
    let (book, table) = (practice::pair_book(), practice::pair_table());
    let mut stream = [0; 8];
    streams::write_pairs(&book, 4, &[5, 70, 71], &mut stream).unwrap();

    let mut out = [7; 3];
    let refused = streams::read_pairs(&book, &table, 4, 3, &stream[..4], &mut out).unwrap_err();
    assert_eq!((refused.reason, refused.place), (Reason::StreamEnds, 2));
    assert_eq!(out, [5, 70, 7]);

    let mut window = [7; 32];
    let (book, table) = (practice::window_book(), practice::window_table());
    let refused = streams::read_window(&book, &table, 5, &[0xff; 4], &mut window).unwrap_err();
    let (before, after) = window.split_at(refused.place as usize);
    assert_eq!(before, [0; 21]);
    assert_eq!(after, [7; 11]);
}

#[test]
fn a_duplicate_in_a_build_leaves_empty_slots() {
    let (mut region, mut spare) = ([7; 8], [7; 8]);
    let refused = tables::build(10, &[1, 2, 1], &mut region, &mut spare).unwrap_err();
    assert_eq!((refused.reason, refused.place), (Reason::NotAbove, 2));
    assert_eq!((region, spare), ([RESERVED; 8], [RESERVED; 8]));

    let (mut region, mut spare) = ([7; 8], [7; 8]);
    assert!(tables::build(10, &[1, 1024], &mut region, &mut spare).is_err());
    assert_eq!((region, spare), ([7; 8], [7; 8]));
}

#[test]
fn a_table_call_that_changes_nothing_leaves_record_region_and_spare() {
    let (mut region, mut spare) = ([0; 4], [0; 4]);
    let made = tables::build(10, &[300, 600, 900], &mut region, &mut spare).unwrap();
    spare = [7; 4];
    let before = region;

    let mut table = made;
    let mut call = |change: fn(&mut _, &mut _, &mut _, u32) -> _, item| {
        change(&mut table, &mut region[..], &mut spare[..], item)
    };
    assert_eq!(call(tables::insert, 300), Ok(false));
    assert_eq!(call(tables::delete, 5), Ok(false));
    // a fourth item wants 8 slots
    assert_eq!(
        call(tables::insert, 5).map_err(|refused| refused.reason),
        Err(Reason::NoRoom)
    );
    assert_eq!((table, region, spare), (made, before, [7; 4]));
}

#[test]
fn a_refused_listing_leaves_the_output() {
    let (mut region, mut spare) = ([0; 4], [0; 4]);
    let table = tables::build(10, &[300, 600, 900], &mut region, &mut spare).unwrap();
    let mut out = [7; 2];
    for listing in [tables::extract, tables::walk] {
        let refused = listing(&table, &region, &spare, &mut out).unwrap_err();
        assert_eq!((refused.reason, out), (Reason::NoRoom, [7; 2]));
    }
}

#[test]
fn a_refused_split_leaves_window_and_list() {
    let (mut window, mut pairs) = ([7; 16], [7; 1]);
    let refused = unions::split(4, &[1 << 20; 16], &mut window, &mut pairs).unwrap_err();
    assert_eq!(refused.reason, Reason::NoRoom);
    assert_eq!((window, pairs), ([7; 16], [7]));
}

#[test]
fn a_refused_expansion_or_merge_leaves_record_and_matrix() {
    let mut matrix = [7; 16];
    assert!(unions::expand(4, 1, &[], &[1024], &mut matrix).is_err());
    assert_eq!(matrix, [7; 16]);

    let mut union = unions::new_union(4, 1, &mut matrix).unwrap();
    let source = Source {
        lg_k: 4,
        seed: 2,
        coupons: 1,
    };
    let made = union;
    assert!(unions::merge(&mut union, &mut matrix, source, &[], &[5]).is_err());
    assert_eq!((union, matrix), (made, [0; 16]));
    assert!(unions::new_union(5, 1, &mut matrix).is_err());
}

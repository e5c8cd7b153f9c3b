//! What is written reads back, what is split expands back, and a built table lists its items.

mod practice;

use bridgenook::Flavor;
use bridgenook::numbers;
use bridgenook::streams;
use bridgenook::tables;
use bridgenook::unions;
use bridgenook::unions::Source;

/// So many pairs of 2^lg_k rows, evenly spread over rows and columns.
fn spread(lg_k: u8, count: u32) -> Vec<u32> {
    let most = 64 << lg_k;
    (0..u64::from(count))
        .map(|i| (i * most / u64::from(count)) as u32)
        .collect()
}

#[test]
fn pairs() {
    let (book, table) = (practice::pair_book(), practice::pair_table());
    for lg_k in [4, 9, 17, 26] {
        for count in [0, 1, 15, 16, 17, 1000] {
            let pairs = spread(lg_k, count);
            let (most, words) = numbers::most_bits(lg_k, count).unwrap();
            let mut out = vec![7; words.bytes() as usize];
            let written = streams::write_pairs(&book, lg_k, &pairs, &mut out).unwrap();
            assert!(written.bits <= most);

            let mut read = vec![7; pairs.len() + 1];
            streams::read_pairs(&book, &table, lg_k, count, &out, &mut read).unwrap();
            assert_eq!(read[..pairs.len()], pairs);
            assert_eq!(read[pairs.len()], 7);
        }
    }
}

#[test]
fn windows() {
    let (book, table) = (practice::window_book(), practice::window_table());
    let window: Vec<u8> = (0..=255).rev().collect();
    let mut out = [7; 400];
    let written = streams::write_window(&book, 8, &window, &mut out).unwrap();
    let words = written.words.bytes() as usize;
    assert!(out[words..].iter().all(|&byte| byte == 7));

    let mut read = [7; 256];
    streams::read_window(&book, &table, 8, &out[..words], &mut read).unwrap();
    assert_eq!(read[..], window);
}

#[test]
fn splits() {
    // Each matrix has its columns filled up to some way, and a surprise far above: every flavor but Empty.
    for (columns, flavor) in [
        (0, Flavor::Sparse),
        (1, Flavor::Pinned),
        (2, Flavor::Pinned),
        (20, Flavor::Sliding),
    ] {
        let mut matrix = vec![(1_u64 << columns) - 1; 64];
        matrix[3] |= 1 << 50;
        let (mut window, mut pairs) = (vec![7; 64], vec![0; 4096]);
        let summary = unions::split(6, &matrix, &mut window, &mut pairs).unwrap();
        assert_eq!(
            (summary.flavor, summary.pairs, summary.column),
            (flavor, 1, 50)
        );
        assert_eq!(unions::count(6, &matrix), Ok(summary.coupons));

        if !flavor.has_window() {
            assert_eq!(window, [7; 64]);
            window.clear();
        }
        let mut expanded = vec![7; 64];
        let listed = &pairs[..summary.pairs as usize];
        unions::expand(6, summary.coupons, &window, listed, &mut expanded).unwrap();
        assert_eq!(expanded, matrix);
    }
}

#[test]
fn unions_take_every_source() {
    let mut matrix = [7; 64];
    let mut union = unions::new_union(6, 1, &mut matrix).unwrap();
    assert_eq!(matrix, [0; 64]);
    for (lg_k, pairs) in [(6, [5, 64 * 40]), (5, [64 * 8 + 1, 64 * 31 + 63])] {
        let source = Source {
            lg_k,
            seed: 1,
            coupons: 2,
        };
        unions::merge(&mut union, &mut matrix, source, &[], &pairs).unwrap();
    }
    let mut folded = [0; 64];
    (folded[0], folded[8], folded[31]) = (1 << 5, 0b11, 1 << 63);
    assert_eq!((union.present_lg_k, matrix), (5, folded));

    let empty = Source {
        lg_k: 4,
        seed: 1,
        coupons: 0,
    };
    unions::merge(&mut union, &mut matrix, empty, &[], &[]).unwrap();
    assert_eq!((union.present_lg_k, matrix), (5, folded));
}

#[test]
fn table_items() {
    let list: Vec<u32> = (0..100).map(|i| i * 10).collect();
    let (mut region, mut spare) = (vec![0; 256], vec![0; 256]);
    let table = tables::build(10, &list, &mut region, &mut spare).unwrap();
    assert_eq!((table.lg, table.valid_bits, table.items), (8, 10, 100));
    let mut out = vec![0; 100];
    for listing in [tables::extract, tables::walk] {
        assert_eq!(listing(&table, &region, &spare, &mut out), Ok(100));
        out.sort_unstable();
        assert_eq!(out, list);
    }
}

//! Every refusal number, reached by some call, with its whole text; among them the texts whose words or noun depend on what was lent.

mod practice;

use bridgenook::PlaceOf;
use bridgenook::RESERVED;
use bridgenook::Reason;
use bridgenook::Refused;
use bridgenook::books;
use bridgenook::numbers;
use bridgenook::streams;
use bridgenook::tables;
use bridgenook::tables::Table;
use bridgenook::unions;
use bridgenook::unions::Source;

fn told<T>(answer: Result<T, Refused>) -> String {
    answer.err().expect("it should refuse").to_string()
}

/// Reads by the practice book.
fn read(lg_k: u8, count: u32, stream: u128) -> Result<(), Refused> {
    let (book, table) = (practice::pair_book(), practice::pair_table());
    let mut out = vec![0; count as usize];
    streams::read_pairs(&book, &table, lg_k, count, &stream.to_le_bytes(), &mut out)
}

fn insert(record: Table, region: &mut [u32], item: u32) -> Result<bool, Refused> {
    let mut spare = vec![0; region.len()];
    tables::insert(&mut { record }, region, &mut spare, item)
}

fn build(valid_bits: u8, list: &[u32]) -> Result<Table, Refused> {
    tables::build(valid_bits, list, &mut [0; 8], &mut [0; 8])
}

fn expand(coupons: u32, window: &[u8], pairs: &[u32]) -> Result<(), Refused> {
    unions::expand(4, coupons, window, pairs, &mut [0; 16])
}

/// Merges a lawful source of lg_k 4 and seed 2 into a union whose present lg_k is 4.
fn merge(lg_k: u8, seed: u64, matrix: &mut [u64]) -> Result<(), Refused> {
    let source = Source {
        lg_k: 4,
        seed: 2,
        coupons: 1,
    };
    let mut union = unions::Union {
        lg_k,
        present_lg_k: 4,
        seed,
    };
    unions::merge(&mut union, matrix, source, &[], &[5])
}

#[test]
fn numbers_and_lengths() {
    assert_eq!(
        told(numbers::rows(27)),
        "refused (1): lg_k is outside 4..26"
    );
    assert_eq!(
        told(books::practice_pair_book(&mut [0; 64])),
        "refused (2): a lent part has the wrong length"
    );
    assert_eq!(
        told(numbers::most_bits(26, (1 << 28) + 1)),
        "refused (4): there are more than 2^28 pairs"
    );
    assert_eq!(
        told(streams::write_pairs(
            &practice::pair_book(),
            4,
            &[5],
            &mut [0; 3]
        )),
        "refused (5): the output is shorter than needed"
    );
    assert_eq!(
        told(numbers::determine_correct_offset(4, 1025)),
        "refused (17): the coupons exceed 64k"
    );
}

#[test]
fn a_book_is_refused_at_a_symbol_or_as_a_whole() {
    let mut book = practice::pair_book();
    book[0] = 0;
    let at_the_first = "refused (3): the book has an entry of wrong shape (length 1 to 12, codeword below 2^length), at symbol 0";
    assert_eq!(told(books::check_book(&book)), at_the_first);
    assert_eq!(
        told(books::check_table(&book, &practice::pair_table())),
        at_the_first
    );
    assert_eq!(
        told(streams::write_pairs(&book, 4, &[5], &mut [0; 8])),
        at_the_first
    );

    book[0] = book[1];
    assert_eq!(
        told(books::check_book(&book)),
        "refused (3): the book fails the check: some twelve bits begin with no codeword of it, or with two"
    );
    assert_eq!(
        told(books::check_table(
            &practice::window_book(),
            &practice::pair_table()
        )),
        "refused (3): the book fails the check, or the decoding table is not that book's"
    );
    assert_eq!(
        told(books::pick(&[0; books::SET_ENTRIES], 22)),
        "refused (3): there is no such phase"
    );
}

#[test]
fn a_reader_says_where_in_the_stream() {
    let (book, table) = (practice::pair_book(), practice::pair_table());
    assert_eq!(
        told(streams::read_pairs(&book, &table, 4, 1, &[], &mut [0])),
        "refused (6): the stream ends inside a read, at pair 0, bit 0"
    );
    // One pair at lg_k 26 has 26 base bits: a one is symbol 0, then 64 zeros and a one are a row step of 64 · 2^26.
    assert_eq!(
        told(read(26, 1, 1 | 1 << 65)),
        "refused (7): the row step is 2^32 or more, at pair 0, bit 92"
    );
    // 16 pairs at lg_k 4 have none: symbol 0, then sixteen zeros and a one.
    assert_eq!(
        told(read(4, 16, 1 | 1 << 17)),
        "refused (8): the row is not below k, at pair 0, bit 18"
    );
    // four zeros, five ones, a one: symbol 64; then no row step
    assert_eq!(
        told(read(4, 16, 0b111_1111_0000)),
        "refused (9): the column is not below 64, at pair 0, bit 11"
    );
    // four zeros, five ones, a zero: symbol 63; then a one and 26 ones, the last row
    assert_eq!(
        told(read(26, 1, ((1 << 27) - 1) << 10 | 0b01_1111_0000)),
        "refused (10): the reserved number 4294967295, at pair 0, bit 37"
    );
}

#[test]
fn a_window_reader_counts_bytes() {
    let (book, table) = (practice::window_book(), practice::window_table());
    // a one is byte 0; the look of twelve bits at bit 21 would pass the word
    let refused = streams::read_window(&book, &table, 5, &[0xff; 4], &mut [0; 32]).unwrap_err();
    assert_eq!(
        refused.to_string(),
        "refused (6): the stream ends inside a read, at byte 21, bit 21"
    );
    assert_eq!(refused.name(), "StreamEnds");
    assert_eq!(refused.place_of(), Some(PlaceOf::Byte));
    assert!(refused.has_bit());
}

#[test]
fn a_list_is_refused_at_a_pair() {
    assert_eq!(
        told(streams::judge_pairs(4, &[5, 1024])),
        "refused (8): the row is not below k, at pair 1"
    );
    assert_eq!(
        told(streams::judge_pairs(26, &[RESERVED])),
        "refused (10): the reserved number 4294967295, at pair 0"
    );
    assert_eq!(
        told(streams::judge_pairs(4, &[5, 5])),
        "refused (11): the pair is not above the one before, at pair 1"
    );
}

#[test]
fn a_table_is_refused_at_an_item_of_a_list() {
    assert_eq!(
        told(build(10, &[1, RESERVED])),
        "refused (10): the reserved number 4294967295, at item 1"
    );
    assert_eq!(
        told(build(10, &[1, 2, 1])),
        "refused (11): the item stands earlier in the list already, at item 2"
    );
    assert_eq!(
        told(build(10, &[1024])),
        "refused (12): the item is not below 2^(valid bits), at item 0"
    );
    assert_eq!(
        told(build(3, &[0, 1, 2, 3, 4, 5, 6])),
        "refused (13): the table must grow, but its new lg would pass 26 or not be below the valid bits"
    );
    assert_eq!(
        told(build(10, &[0, 1, 2, 3, 4, 5, 6])),
        "refused (5): the table's region is shorter than needed"
    );
}

#[test]
fn an_insert_has_no_place() {
    let record = Table {
        lg: 2,
        valid_bits: 10,
        items: 0,
    };
    assert_eq!(
        told(insert(record, &mut [RESERVED; 4], 1024)),
        "refused (12): the item is not below 2^(valid bits)"
    );
    assert_eq!(
        told(insert(record, &mut [0; 4], 5)),
        "refused (15): the lent state is not lawful"
    );
}

#[test]
fn a_sketch_is_refused_at_a_row_or_at_a_pair() {
    // Of 1,024 coupons the offset is 61: the fourth bit of a window byte would be column 64.
    let mut window = [7; 16];
    window[9] = 15;
    assert_eq!(
        told(expand(1024, &window, &[])),
        "refused (14): a window bit lies past column 63, at row 9"
    );
    window[9] = 7;
    assert_eq!(
        told(expand(1024, &window, &[3, 64 * 9 + 61])),
        "refused (14): a listed pair lies inside the window's columns, at pair 1"
    );
    assert_eq!(
        told(expand(1023, &window, &[])),
        "refused (17): the stated coupons differ from those held, or exceed 64k"
    );
}

#[test]
fn the_reserved_number_in_a_matrix_is_a_row() {
    let lg_k = 26;
    let mut matrix = vec![0; 1 << 26];
    matrix[(1 << 26) - 1] = 1 << 63;
    let in_the_last_row =
        "refused (10): the bit of the reserved number 4294967295 is set, at row 67108863";
    assert_eq!(told(unions::count(lg_k, &matrix)), in_the_last_row);

    // 59k coupons have offset 56, so that the last bit of a window byte is column 63.
    let mut window = vec![0; 1 << 26];
    window[(1 << 26) - 1] = 0x80;
    let coupons = 59 << 26;
    assert_eq!(
        told(unions::expand(lg_k, coupons, &window, &[], &mut matrix)),
        in_the_last_row
    );
    assert_eq!(
        told(unions::expand(
            lg_k,
            coupons,
            &window,
            &[RESERVED],
            &mut matrix
        )),
        "refused (10): the reserved number 4294967295, at pair 0"
    );
}

#[test]
fn a_union_is_judged_before_the_seeds() {
    assert_eq!(
        told(merge(4, 1, &mut [0; 16])),
        "refused (16): the seeds differ"
    );
    assert_eq!(
        told(merge(5, 1, &mut [1; 32])),
        "refused (15): the lent state is not lawful"
    );
    assert_eq!(
        told(merge(27, 1, &mut [0; 16])),
        "refused (1): lg_k is outside 4..26"
    );
    assert_eq!(merge(4, 2, &mut [0; 16]), Ok(()));
}

#[test]
fn reasons_have_their_numbers() {
    for number in 1..=17 {
        assert_eq!(Reason::of_number(number).map(Reason::number), Some(number));
    }
    assert_eq!(Reason::of_number(0), None);
    assert_eq!(Reason::of_number(18), None);
    for reason in Reason::ALL {
        assert_eq!(reason.name(), format!("{reason:?}"));
    }
}

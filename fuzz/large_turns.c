/* Inputs of up to a gigabyte. Each is refused, before or after it is read; nothing but a few pages is ever written. */
#include "bridgenook.h"

#include "books.h"
#include "calls.h"
#include "lending.h"
#include "turns.h"

static const size_t TOO_MANY_BYTES = ((size_t)1 << 30) + 1;
static const size_t TOO_MANY_PAIRS = ((size_t)1 << 28) + 1;
static const size_t ROWS_26 = (size_t)1 << 26;
/* Coupons at lg_k 26 for which the window's columns are 60 to 67. */
static const uint32_t COUPONS_OFFSET_60 = 4194304000u;

static struct book book;

static void write_too_many_pairs(void)
{
    make_book(&book, BRIDGENOOK_PAIR_BOOK);
    const uint16_t *entries = lend(book.entries, book.length, 2);
    const uint32_t *pairs = lend_sparse(TOO_MANY_PAIRS, 4);
    uint8_t *out = lend_writable(NULL, 100, 1);
    uint64_t *answer = begin(WRITE_PAIRS);
    finish(bridgenook_write_pairs(entries, book.length, 26, pairs, TOO_MANY_PAIRS, out, 100, answer), answer);
}

static void build_of_too_many_items(void)
{
    const uint32_t *list = lend_sparse(TOO_MANY_PAIRS, 4);
    uint32_t *region = lend_writable(NULL, 8, 4), *spare = lend_writable(NULL, 8, 4);
    uint64_t *answer = begin(TABLE_BUILD);
    finish(bridgenook_table_build(32, list, TOO_MANY_PAIRS, region, 8, spare, 8, answer), answer);
}

static void read_pairs_of_too_many_bytes(void)
{
    make_book(&book, BRIDGENOOK_PAIR_BOOK);
    const uint16_t *entries = lend(book.entries, book.length, 2);
    const uint16_t *table = lend(book.table, book.table_length, 2);
    const uint8_t *stream = lend_sparse(TOO_MANY_BYTES, 1);
    uint32_t *out = lend_writable(NULL, 3, 4);
    uint64_t *answer = begin(READ_PAIRS);
    finish(bridgenook_read_pairs(entries, book.length, table, book.table_length, 4, 3, stream, TOO_MANY_BYTES, out, 3,
                                 answer),
           answer);
}

static void read_window_of_too_many_bytes(void)
{
    make_book(&book, BRIDGENOOK_WINDOW_BOOK);
    const uint16_t *entries = lend(book.entries, book.length, 2);
    const uint16_t *table = lend(book.table, book.table_length, 2);
    const uint8_t *stream = lend_sparse(TOO_MANY_BYTES, 1);
    uint8_t *window = lend_writable(NULL, 16, 1);
    uint64_t *answer = begin(READ_WINDOW);
    finish(bridgenook_read_window(entries, book.length, table, book.table_length, 4, stream, TOO_MANY_BYTES, window, 16,
                                  answer),
           answer);
}

/* A matrix of 2^26 rows with nothing but the reserved number's bit. */
static uint64_t *lend_reserved_matrix(void)
{
    uint64_t *matrix = lend_sparse(ROWS_26, 8);
    matrix[ROWS_26 - 1] = UINT64_C(1) << 63;
    return matrix;
}

static void count_reserved(void)
{
    const uint64_t *matrix = lend_reserved_matrix();
    uint64_t *answer = begin(COUNT);
    finish(bridgenook_count(26, matrix, ROWS_26, answer), answer);
}

static void split_reserved(void)
{
    const uint64_t *matrix = lend_reserved_matrix();
    uint8_t *window = lend_sparse(ROWS_26, 1);
    uint32_t *pairs = lend_writable(NULL, 10, 4);
    uint64_t *answer = begin(SPLIT);
    finish(bridgenook_split(26, matrix, ROWS_26, window, ROWS_26, pairs, 10, answer), answer);
}

static void expand_listed_reserved(void)
{
    static const uint32_t list[] = {0, BRIDGENOOK_EMPTY_SLOT};
    const uint8_t *window = lend(NULL, 0, 1);
    const uint32_t *pairs = lend(list, 2, 4);
    uint64_t *matrix = lend_sparse(ROWS_26, 8);
    uint64_t *answer = begin(EXPAND);
    finish(bridgenook_expand(26, 2, window, 0, pairs, 2, matrix, ROWS_26, answer), answer);
}

/* A window whose one bit is the reserved number's. */
static const uint8_t *lend_reserved_window(void)
{
    uint8_t *window = lend_sparse(ROWS_26, 1);
    window[ROWS_26 - 1] = 1u << 3;
    return window;
}

static void expand_window_reserved(void)
{
    const uint8_t *window = lend_reserved_window();
    const uint32_t *pairs = lend(NULL, 0, 4);
    uint64_t *matrix = lend_sparse(ROWS_26, 8);
    uint64_t *answer = begin(EXPAND);
    finish(bridgenook_expand(26, COUPONS_OFFSET_60, window, ROWS_26, pairs, 0, matrix, ROWS_26, answer), answer);
}

static void merge_window_reserved(void)
{
    static const uint64_t zeros[16];
    uint64_t *matrix = lend_writable(zeros, 16, 8);
    const uint8_t *window = lend_reserved_window();
    const uint32_t *pairs = lend(NULL, 0, 4);
    uint64_t *answer = begin(MERGE);
    finish(bridgenook_merge(4, 4, 1, matrix, 16, 26, 1, COUPONS_OFFSET_60, window, ROWS_26, pairs, 0, answer), answer);
}

static void merge_into_reserved(void)
{
    uint64_t *matrix = lend_reserved_matrix();
    const uint8_t *window = lend(NULL, 0, 1);
    const uint32_t *pairs = lend(NULL, 0, 4);
    uint64_t *answer = begin(MERGE);
    finish(bridgenook_merge(26, 26, 1, matrix, ROWS_26, 4, 1, 0, window, 0, pairs, 0, answer), answer);
}

void turn_large(int number)
{
    static void (*const turns[LARGE_TURNS])(void) = {
        write_too_many_pairs,   build_of_too_many_items, read_pairs_of_too_many_bytes, read_window_of_too_many_bytes,
        count_reserved,         split_reserved,          expand_listed_reserved,       expand_window_reserved,
        merge_window_reserved,  merge_into_reserved,
    };
    turns[number]();
}

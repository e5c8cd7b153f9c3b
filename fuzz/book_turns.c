/* Book check, check of a table, fill, pick, practice books. */
#include "bridgenook.h"

#include "books.h"
#include "calls.h"
#include "lending.h"
#include "random.h"
#include "turns.h"

static struct book book;

static void check_book(void)
{
    const uint16_t *entries = lend(book.entries, book.length, 2);
    uint64_t *answer = begin(CHECK_BOOK);
    finish(bridgenook_check_book(entries, book.length, answer), answer);
}

static void check_table(void)
{
    const uint16_t *entries = lend(book.entries, book.length, 2);
    const uint16_t *table = lend(book.table, book.table_length, 2);
    uint64_t *answer = begin(CHECK_TABLE);
    finish(bridgenook_check_table(entries, book.length, table, book.table_length, answer), answer);
}

static void fill_table(void)
{
    const uint16_t *entries = lend(book.entries, book.length, 2);
    uint16_t *table = lend_writable(NULL, book.table_length, 2);
    uint64_t *answer = begin(FILL_TABLE);
    uint32_t number = bridgenook_fill_table(entries, book.length, table, book.table_length, answer);
    if (number == BRIDGENOOK_ACCEPTED) {
        may_change(table, 2 * book.table_length);
    }
    finish(number, answer);
}

static void pick(void)
{
    size_t length = one_in(4) ? other_length(BRIDGENOOK_BOOK_SET) : BRIDGENOOK_BOOK_SET;
    uint8_t phase = (uint8_t)(one_in(3) ? any_number() : any_below(24));
    const uint16_t *set = lend(NULL, length, 2);
    uint64_t *answer = begin(PICK);
    finish(bridgenook_pick(set, length, phase, answer), answer);
}

typedef uint32_t practice_call(uint16_t *out, size_t out_length, uint64_t answer[8]);

static void practice(enum call call, practice_call *export, size_t right)
{
    size_t length = one_in(3) ? other_length(right) : right;
    uint16_t *out = lend_writable(NULL, length, 2);
    uint64_t *answer = begin(call);
    uint32_t number = export(out, length, answer);
    if (number == BRIDGENOOK_ACCEPTED) {
        may_change(out, 2 * length);
    }
    finish(number, answer);
}

void turn_books(void)
{
    make_book(&book, one_in(2) ? BRIDGENOOK_PAIR_BOOK : BRIDGENOOK_WINDOW_BOOK);
    if (!one_in(3)) {
        damage_book(&book);
    }
    switch (any_below(7)) {
    case 0:
        check_book();
        break;
    case 1:
        check_table();
        break;
    case 2:
        fill_table();
        break;
    case 3:
        pick();
        break;
    case 4:
        practice(PRACTICE_PAIR_BOOK, bridgenook_practice_pair_book, BRIDGENOOK_PAIR_BOOK);
        break;
    case 5:
        practice(PRACTICE_WINDOW_BOOK, bridgenook_practice_window_book, BRIDGENOOK_WINDOW_BOOK);
        break;
    default:
        practice(PRACTICE_PAIR_TABLE, bridgenook_practice_pair_table, BRIDGENOOK_DECODING_TABLE);
    }
}

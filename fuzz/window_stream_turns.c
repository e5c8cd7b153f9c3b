/* Streams of windows, written and read. */
#include "bridgenook.h"

#include "bits.h"
#include "books.h"
#include "calls.h"
#include "lending.h"
#include "random.h"
#include "turns.h"

enum { MOST_LG = 11 };

static struct book book;
static struct stream stream;
static uint8_t window[3 << MOST_LG];
static size_t rows;
static uint8_t lg;

static void make_window(void)
{
    lg = (uint8_t)any_between(4, one_in(8) ? MOST_LG : 7);
    rows = (size_t)1 << lg;
    fill_random(window, sizeof window);
    bool is_sparse = one_in(2);
    for (size_t i = 0; is_sparse && i < rows; i++) {
        window[i] &= window[i + rows] & window[i + rows / 2];
    }
}

/* The bytes of the window's stream, which is left in `stream`. */
static size_t written_bytes(void)
{
    uint64_t answer[8];
    uint32_t number =
        bridgenook_write_window(book.entries, book.length, lg, window, rows, stream.bytes, MOST_STREAM, answer);
    stream.length = number == BRIDGENOOK_ACCEPTED ? 4 * (size_t)answer[3] : 0;
    return stream.length;
}

/* Book, lg_k or window that are mostly refused. */
static void damage_rest(void)
{
    if (one_in(6)) {
        damage_book(&book);
    }
    if (one_in(10)) {
        lg = one_in(2) ? outside_lg() : (uint8_t)any_between(4, 26);
    }
    if (one_in(10)) {
        rows = other_length(rows);
    }
}

static void write_window(void)
{
    size_t room = written_bytes();
    if (one_in(3)) {
        room = one_in(2) ? room - 1 : (size_t)any_below(2 * room);
    }
    damage_rest();
    const uint16_t *entries = lend(book.entries, book.length, 2);
    const uint8_t *bytes = lend(window, rows, 1);
    uint8_t *out = lend_writable(NULL, room, 1);
    uint64_t *answer = begin(WRITE_WINDOW);
    uint32_t number = bridgenook_write_window(entries, book.length, lg, bytes, rows, out, room, answer);
    if (number == BRIDGENOOK_ACCEPTED) {
        may_change(out, 4 * (size_t)answer[3]);
    }
    finish(number, answer);
}

static void read_window(void)
{
    written_bytes();
    if (one_in(2)) {
        damage_stream(&stream);
    }
    damage_rest();
    const uint16_t *entries = lend(book.entries, book.length, 2);
    const uint16_t *table = lend(book.table, book.table_length, 2);
    const uint8_t *bytes = lend(stream.bytes, stream.length, 1);
    uint8_t *out = lend_writable(NULL, rows, 1);
    uint64_t *answer = begin(READ_WINDOW);
    uint32_t number = bridgenook_read_window(entries, book.length, table, book.table_length, lg, bytes, stream.length,
                                             out, rows, answer);
    if (number == BRIDGENOOK_STREAM_ENDS && answer[0] >= rows) {
        fault("a place past the window");
    }
    if (number == BRIDGENOOK_ACCEPTED || number == BRIDGENOOK_STREAM_ENDS) {
        may_change(out, number == BRIDGENOOK_ACCEPTED ? rows : (size_t)answer[0]);
    }
    finish(number, answer);
}

void turn_window_streams(void)
{
    make_book(&book, BRIDGENOOK_WINDOW_BOOK);
    make_window();
    if (one_in(2)) {
        write_window();
    } else {
        read_window();
    }
}

/* Lists judged, and streams of pairs, written and read. */
#include "bridgenook.h"

#include "bits.h"
#include "books.h"
#include "calls.h"
#include "lending.h"
#include "lists.h"
#include "random.h"
#include "turns.h"

static struct book book;
static struct list list;
static struct stream stream;
/* What a reader is told, which need not be true. */
static uint8_t lg;
static uint32_t count;

static void judge_pairs(void)
{
    const uint32_t *pairs = lend(list.pairs, list.length, 4);
    uint64_t *answer = begin(JUDGE_PAIRS);
    finish(bridgenook_judge_pairs(lg, pairs, list.length, answer), answer);
}

/* The bytes of the list's stream, which is left in `stream`; 0 if it is refused. */
static size_t written_bytes(void)
{
    uint64_t answer[8];
    uint32_t number = bridgenook_write_pairs(book.entries, book.length, lg, list.pairs, list.length, stream.bytes,
                                             MOST_STREAM, answer);
    stream.length = number == BRIDGENOOK_ACCEPTED ? 4 * (size_t)answer[3] : 0;
    return stream.length;
}

static void write_pairs(void)
{
    size_t room = written_bytes();
    if (one_in(3)) {
        room = one_in(2) && room > 0 ? room - 1 : (size_t)any_below(2 * room + 10);
    }
    const uint16_t *entries = lend(book.entries, book.length, 2);
    const uint32_t *pairs = lend(list.pairs, list.length, 4);
    uint8_t *out = lend_writable(NULL, room, 1);
    uint64_t *answer = begin(WRITE_PAIRS);
    uint32_t number = bridgenook_write_pairs(entries, book.length, lg, pairs, list.length, out, room, answer);
    if (number == BRIDGENOOK_ACCEPTED) {
        may_change(out, 4 * (size_t)answer[3]);
    }
    finish(number, answer);
}

/* A pair as its steps: the code of the column step, zeros and a one, the low bits. */
static void put_steps(uint8_t base_bits, uint64_t column_step, uint64_t row_step)
{
    uint16_t entry = book.entries[column_step];
    put_bits(&stream, codeword(entry), code_length(entry));
    put_zeros(&stream, row_step >> base_bits);
    put_bits(&stream, 1, 1);
    put_bits(&stream, row_step, base_bits);
}

static uint8_t base_bits(void)
{
    uint64_t answer[8];
    bridgenook_number_of_base_bits(lg, count, answer);
    return (uint8_t)answer[2];
}

/* Steps that no writer takes: past the last row, past 2^32, past column 63, to the reserved number. */
static void put_faulty_steps(uint8_t low)
{
    uint64_t k = UINT64_C(1) << lg;
    uint64_t which = any_below(4);
    if (which == 0) {
        put_steps(low, any_below(65), k + any_below(2 * k));
    } else if (which == 1 && low >= 20) { /* with fewer low bits the zeros fill the stream */
        put_steps(low, any_below(65), (UINT64_C(1) << 32) - any_below(2));
    } else if (which == 2) {
        put_steps(low, 64, any_below(2));
    } else {
        put_steps(low, 63, k - 1);
    }
}

/* Steps from a writer's range, with a fault among them or at the end. */
static void craft_stream(void)
{
    count = (uint32_t)any_between(1, one_in(3) ? 2 : 30);
    lg = one_in(2) ? 26 : (uint8_t)any_between(4, 26);
    uint8_t low = base_bits();
    uint32_t faulty = (uint32_t)any_below(count);
    start_bits(&stream);
    for (uint32_t i = 0; i < count; i++) {
        if (i == faulty) {
            put_faulty_steps(low);
        } else {
            put_steps(low, any_below(8), one_in(2) ? 0 : any_below((UINT64_C(2) << low) + 1));
        }
    }
    end_bits(&stream);
}

static void read_pairs(void)
{
    size_t room = one_in(6) ? other_length(list.length) : count <= MOST_PAIRS ? count : MOST_PAIRS;
    const uint16_t *entries = lend(book.entries, book.length, 2);
    const uint16_t *table = lend(book.table, book.table_length, 2);
    const uint8_t *bytes = lend(stream.bytes, stream.length, 1);
    uint32_t *out = lend_writable(NULL, room, 4);
    uint64_t *answer = begin(READ_PAIRS);
    uint32_t number = bridgenook_read_pairs(entries, book.length, table, book.table_length, lg, count, bytes,
                                            stream.length, out, room, answer);
    uint64_t items = number == BRIDGENOOK_ACCEPTED ? count : 0;
    if (number >= BRIDGENOOK_STREAM_ENDS && number <= BRIDGENOOK_RESERVED) {
        items = answer[0];
    }
    if (items > room || !is_lawful(out, (size_t)items, lg)) {
        fault("a list that is not lawful");
    }
    if (number == BRIDGENOOK_ACCEPTED && items > 4 * (uint64_t)stream.length) {
        fault("more pairs than the stream can hold");
    }
    may_change(out, 4 * (size_t)items);
    finish(number, answer);
}

static void make_stream_to_read(void)
{
    if (one_in(2)) {
        craft_stream();
    } else {
        written_bytes();
        count = one_in(5) ? near(one_in(2) ? list.length : 1 << 28) : (uint32_t)list.length;
    }
    if (one_in(3)) {
        damage_stream(&stream);
    }
}

void turn_pair_streams(void)
{
    make_book(&book, BRIDGENOOK_PAIR_BOOK);
    lg = one_in(4) ? 26 : (uint8_t)any_between(4, 26);
    make_list(&list, lg);
    count = (uint32_t)list.length;
    uint64_t which = any_below(5);
    if (which < 2 && one_in(2)) {
        damage_list(&list);
    }
    if (which >= 2) {
        make_stream_to_read();
    }
    /* After the stream is made, so that it is one of a book that passes. */
    if (one_in(8)) {
        damage_book(&book);
    }
    if (one_in(12)) {
        lg = one_in(2) ? outside_lg() : (uint8_t)any_between(4, 26);
    }
    if (which == 0) {
        judge_pairs();
    } else if (which == 1) {
        write_pairs();
    } else {
        read_pairs();
    }
}

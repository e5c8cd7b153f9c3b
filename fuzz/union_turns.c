/* Count, split, expansion, new union, merge. */
#include <string.h>

#include "bridgenook.h"

#include "calls.h"
#include "lending.h"
#include "random.h"
#include "sketches.h"
#include "turns.h"

static uint64_t matrix[2 * MOST_ROWS + 1];
static size_t rows;
static struct sketch sketch;

static uint8_t some_lg(void)
{
    return (uint8_t)any_between(4, one_in(8) ? MOST_LG : 6);
}

static void count(void)
{
    uint8_t lg = some_lg();
    make_matrix(matrix, lg);
    rows = one_in(4) ? other_length((size_t)1 << lg) : (size_t)1 << lg;
    if (one_in(8)) {
        lg = outside_lg();
    }
    const uint64_t *words = lend(matrix, rows, 8);
    uint64_t *answer = begin(COUNT);
    finish(bridgenook_count(lg, words, rows, answer), answer);
}

/* What a split of the matrix lists. */
static size_t listed_by(uint8_t lg)
{
    uint64_t answer[8];
    bridgenook_split(lg, matrix, rows, sketch.window, rows, sketch.pairs, MOST_LISTED, answer);
    return (size_t)answer[6];
}

static void split(void)
{
    uint8_t lg = some_lg();
    make_matrix(matrix, lg);
    rows = (size_t)1 << lg;
    size_t bytes = rows, room = listed_by(lg);
    if (one_in(3)) {
        room = one_in(2) && room > 0 ? room - 1 : (size_t)any_below(room + 10);
    }
    switch (any_below(12)) {
    case 0:
        lg = outside_lg();
        break;
    case 1:
        rows = other_length(rows);
        break;
    case 2:
        bytes = other_length(bytes);
    }
    const uint64_t *words = lend(matrix, rows, 8);
    uint8_t *window = lend_writable(NULL, bytes, 1);
    uint32_t *pairs = lend_writable(NULL, room, 4);
    uint64_t *answer = begin(SPLIT);
    uint32_t number = bridgenook_split(lg, words, rows, window, bytes, pairs, room, answer);
    if (number == BRIDGENOOK_ACCEPTED) {
        may_change(window, answer[3] < BRIDGENOOK_FLAVOR_HYBRID ? 0 : bytes);
        may_change(pairs, 4 * (size_t)answer[6]);
    }
    finish(number, answer);
}

static void expand(void)
{
    make_sketch(&sketch);
    rows = (size_t)1 << sketch.lg;
    if (one_in(10)) {
        rows = other_length(rows);
    }
    if (one_in(2)) {
        damage_sketch(&sketch);
    }
    const uint8_t *window = lend(sketch.window, sketch.window_length, 1);
    const uint32_t *pairs = lend(sketch.pairs, sketch.pairs_length, 4);
    uint64_t *words = lend_writable(NULL, rows, 8);
    uint64_t *answer = begin(EXPAND);
    uint32_t number = bridgenook_expand(sketch.lg, sketch.coupons, window, sketch.window_length, pairs,
                                        sketch.pairs_length, words, rows, answer);
    if (number == BRIDGENOOK_ACCEPTED) {
        may_change(words, 8 * rows);
    }
    finish(number, answer);
}

static void new_union(void)
{
    uint8_t lg = one_in(4) ? outside_lg() : some_lg();
    rows = (size_t)1 << lg % 16;
    rows = rows > MOST_ROWS || one_in(4) ? other_length(MOST_ROWS) : rows;
    uint64_t *words = lend_writable(NULL, rows, 8);
    uint64_t *answer = begin(NEW_UNION);
    uint32_t number = bridgenook_new_union(lg, any_number(), words, rows, answer);
    if (number == BRIDGENOOK_ACCEPTED) {
        may_change(words, 8 * rows);
    }
    finish(number, answer);
}

/* A union's record; its matrix has the rows of the present lg_k, and zeros up to those of the configured one. */
struct record {
    uint8_t lg;
    uint8_t present;
    uint64_t seed;
};

static struct record make_union(void)
{
    struct record record = {.lg = some_lg(), .seed = any_number()};
    record.present = (uint8_t)any_between(4, record.lg);
    rows = (size_t)1 << record.lg;
    memset(matrix, 0, sizeof matrix);
    make_matrix(matrix, record.present);
    return record;
}

static void damage_union(struct record *record)
{
    switch (any_below(4)) {
    case 0:
        record->lg = one_in(2) ? outside_lg() : some_lg();
        break;
    case 1:
        record->present = one_in(2) ? (uint8_t)any_number() : (uint8_t)any_between(3, 10);
        break;
    case 2: /* often a row past the present ones */
        matrix[any_below(rows)] |= UINT64_C(1) << any_below(64);
        break;
    default:
        rows = other_length(rows);
    }
}

static void merge(void)
{
    struct record record = make_union();
    make_sketch(&sketch);
    uint64_t seed = one_in(4) ? record.seed ^ UINT64_C(1) << any_below(64) : record.seed;
    if (one_in(4)) {
        damage_union(&record);
    }
    if (one_in(2)) {
        damage_sketch(&sketch);
    }
    uint64_t *words = lend_writable(matrix, rows, 8);
    const uint8_t *window = lend(sketch.window, sketch.window_length, 1);
    const uint32_t *pairs = lend(sketch.pairs, sketch.pairs_length, 4);
    uint64_t *answer = begin(MERGE);
    uint32_t number =
        bridgenook_merge(record.lg, record.present, record.seed, words, rows, sketch.lg, seed, sketch.coupons, window,
                         sketch.window_length, pairs, sketch.pairs_length, answer);
    if (number == BRIDGENOOK_ACCEPTED && sketch.coupons != 0) {
        may_change(words, 8 * rows);
    }
    finish(number, answer);
}

void turn_unions(void)
{
    switch (any_below(8)) {
    case 0:
        count();
        break;
    case 1:
        new_union();
        break;
    case 2:
        split();
        break;
    case 3:
    case 4:
        expand();
        break;
    default:
        merge();
    }
}

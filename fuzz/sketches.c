#include "sketches.h"

#include <string.h>

#include "bridgenook.h"
#include "random.h"

static void put_any_pairs(uint64_t *matrix, size_t rows, uint64_t count)
{
    for (; count > 0; count--) {
        matrix[any_below(rows)] |= UINT64_C(1) << any_below(64);
    }
}

/* Each column half as likely as the one before. */
static void put_tickets(uint64_t *matrix, size_t rows, uint64_t count)
{
    for (; count > 0; count--) {
        uint64_t number = any_number(), column = 0;
        while (column < 63 && (number >> column & 1) != 0) {
            column++;
        }
        matrix[any_below(rows)] |= UINT64_C(1) << column;
    }
}

/* All columns below one, but for some pairs. */
static void fill_columns(uint64_t *matrix, size_t rows)
{
    uint64_t columns = any_below(65);
    uint64_t word = columns == 64 ? UINT64_MAX : (UINT64_C(1) << columns) - 1;
    for (size_t row = 0; row < rows; row++) {
        matrix[row] = one_in(4) ? word ^ UINT64_C(1) << any_below(64) : word;
    }
}

void make_matrix(uint64_t *matrix, uint8_t lg)
{
    size_t rows = (size_t)1 << lg;
    memset(matrix, 0, rows * sizeof *matrix);
    switch (any_below(6)) {
    case 0:
        break;
    case 1:
        put_any_pairs(matrix, rows, any_below(rows / 10 + 2));
        break;
    case 2:
        put_any_pairs(matrix, rows, any_below(4 * rows));
        break;
    case 3:
        put_tickets(matrix, rows, any_below(one_in(2) ? rows : 20 * rows));
        break;
    case 4:
        fill_columns(matrix, rows);
        break;
    default:
        fill_random(matrix, rows * sizeof *matrix);
    }
}

void make_sketch(struct sketch *sketch)
{
    static uint64_t matrix[MOST_ROWS];
    uint64_t answer[8];
    sketch->lg = (uint8_t)any_between(4, one_in(8) ? MOST_LG : 6);
    size_t rows = (size_t)1 << sketch->lg;
    make_matrix(matrix, sketch->lg);
    bridgenook_split(sketch->lg, matrix, rows, sketch->window, rows, sketch->pairs, MOST_LISTED, answer);
    sketch->coupons = (uint32_t)answer[2];
    sketch->window_length = answer[3] < BRIDGENOOK_FLAVOR_HYBRID ? 0 : rows;
    sketch->pairs_length = (size_t)answer[6];
}

/* The coupons at which the window's last columns are past 63, with such a window. */
static void pass_last_column(struct sketch *sketch)
{
    uint64_t k = UINT64_C(1) << sketch->lg;
    sketch->coupons = (uint32_t)any_between(60 * k, 64 * k);
    sketch->window_length = (size_t)k;
    memset(sketch->window, 0, (size_t)k);
    sketch->window[any_below(k)] = (uint8_t)(1u << any_between(3, 7));
}

static void damage_pairs(struct sketch *sketch)
{
    uint64_t limit = UINT64_C(64) << sketch->lg;
    if (sketch->pairs_length == 0 || one_in(4)) {
        sketch->pairs[sketch->pairs_length++] = near(limit);
        return;
    }
    uint32_t *pair = &sketch->pairs[any_below(sketch->pairs_length)];
    switch (any_below(4)) {
    case 0:
        *pair = near(limit);
        break;
    case 1: /* to another column of the row */
        *pair = *pair / 64 * 64 + (uint32_t)any_below(64);
        break;
    case 2:
        *pair = sketch->pairs[any_below(sketch->pairs_length)];
        break;
    default:
        sketch->pairs_length--;
    }
}

/* A Sparse sketch of 2^26 rows that lists the reserved number: no window and no matrix of its own is lent with it. */
static void list_reserved(struct sketch *sketch)
{
    sketch->lg = 26;
    sketch->coupons = 2;
    sketch->window_length = 0;
    sketch->pairs_length = 2;
    sketch->pairs[0] = (uint32_t)any_below(BRIDGENOOK_EMPTY_SLOT);
    sketch->pairs[1] = BRIDGENOOK_EMPTY_SLOT;
}

void damage_sketch(struct sketch *sketch)
{
    switch (any_below(8)) {
    case 0:
        sketch->coupons = one_in(2) ? near(sketch->coupons) : near(UINT64_C(64) << sketch->lg);
        break;
    case 1:
        sketch->window_length = other_length(sketch->window_length);
        break;
    case 2:
        sketch->lg = one_in(2) ? outside_lg() : (uint8_t)any_between(4, 26);
        break;
    case 3:
        pass_last_column(sketch);
        break;
    case 4:
        sketch->window[any_below(sizeof sketch->window)] ^= (uint8_t)(1u << any_below(8));
        break;
    case 5:
        list_reserved(sketch);
        break;
    default:
        damage_pairs(sketch);
    }
}

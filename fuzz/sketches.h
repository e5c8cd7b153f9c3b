/* Matrices and sketches: lawful ones of every flavor, which the library splits, and damaged ones. */
#ifndef SKETCHES_H
#define SKETCHES_H

#include <stddef.h>
#include <stdint.h>

/* Matrices have at most 2^9 rows, so that their lists of up to 64 pairs a row stay short. */
enum { MOST_LG = 9, MOST_ROWS = 1 << MOST_LG, MOST_LISTED = 64 * MOST_ROWS };

struct sketch {
    uint8_t lg;
    uint32_t coupons;
    /* With room for a window that is too long, and a pair too many. */
    uint8_t window[2 * MOST_ROWS + 1];
    size_t window_length;
    uint32_t pairs[MOST_LISTED + 1];
    size_t pairs_length;
};

/* Empty, with few pairs, as tickets would fill it, with full columns and some noise, or anything. */
void make_matrix(uint64_t *matrix, uint8_t lg);

void make_sketch(struct sketch *sketch);

/* Mostly so that it is refused. */
void damage_sketch(struct sketch *sketch);

#endif

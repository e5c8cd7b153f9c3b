/* Lists of pairs, lawful and damaged. */
#ifndef LISTS_H
#define LISTS_H

#include <stdbool.h>
#include <stddef.h>
#include <stdint.h>

enum { MOST_PAIRS = 1000 };

struct list {
    uint8_t lg;
    /* One more than a lawful list has, for damage. */
    uint32_t pairs[MOST_PAIRS + 1];
    size_t length;
};

/* A lawful list at a lawful lg_k: dense or spread, at the front of the rows, anywhere, or up to the last. */
void make_list(struct list *list, uint8_t lg);

/* Mostly so that it is refused: a row not below k, a pair not above the one before, the reserved number. */
void damage_list(struct list *list);

bool is_lawful(const uint32_t *pairs, size_t length, uint8_t lg);

#endif

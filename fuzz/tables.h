/* Pair tables as they are lent: lawful ones, which the library builds, and damaged ones. */
#ifndef TABLES_H
#define TABLES_H

#include <stddef.h>
#include <stdint.h>

enum { MOST_ITEMS = 700, MOST_SLOTS = 4096 };

/* Record, region, and the spare's length; and the items that it was built from, in another order perhaps. */
struct table {
    uint8_t lg;
    uint8_t valid;
    uint32_t items;
    uint32_t region[MOST_SLOTS];
    size_t slots;
    size_t spares;
    uint32_t list[MOST_ITEMS];
    size_t listed;
};

void make_table(struct table *table);

/* A record that is not the region's, or a region that no calls lead to. */
void damage_table(struct table *table);

/* A list, valid bits or room that a build mostly refuses. */
void damage_build(struct table *table);

/* Room for just so many slots, for twice as many, or anything between. */
void choose_room(struct table *table, uint64_t slots);

/* 2^valid, as far as there are items. */
uint64_t item_limit(const struct table *table);

/* An item below that, and not the empty slot. */
uint32_t some_item(const struct table *table);

#endif

#include "tables.h"

#include "bridgenook.h"
#include "random.h"

uint64_t item_limit(const struct table *table)
{
    return UINT64_C(1) << (table->valid < 32 ? table->valid : 32);
}

uint32_t some_item(const struct table *table)
{
    uint64_t limit = item_limit(table);
    return (uint32_t)any_below(limit < BRIDGENOOK_EMPTY_SLOT ? limit : BRIDGENOOK_EMPTY_SLOT);
}

static void shuffle(uint32_t *items, size_t count)
{
    for (size_t i = count; i > 1; i--) {
        size_t other = any_below(i);
        uint32_t kept = items[i - 1];
        items[i - 1] = items[other];
        items[other] = kept;
    }
}

/* Distinct items, dense or spread, rising or shuffled. */
static void make_items(struct table *table)
{
    uint64_t limit = item_limit(table);
    uint64_t most = limit * 3 / 4 < MOST_ITEMS ? limit * 3 / 4 : MOST_ITEMS;
    uint64_t wanted = any_below(one_in(4) || most < 40 ? most + 1 : 40);
    uint64_t gap = one_in(2) ? 2 : limit / (wanted + 1) + 1;
    uint64_t next = one_in(2) ? 0 : any_below(limit);
    table->listed = 0;
    while (table->listed < wanted && next < limit && next < BRIDGENOOK_EMPTY_SLOT) {
        table->list[table->listed++] = (uint32_t)next;
        next += 1 + any_below(gap);
    }
    if (one_in(2)) {
        shuffle(table->list, table->listed);
    }
}

void choose_room(struct table *table, uint64_t slots)
{
    table->slots = (size_t)(one_in(3) ? slots : one_in(2) ? 2 * slots : any_between(slots, 2 * slots));
    table->spares = table->slots;
}

static uint64_t slots_for(size_t count)
{
    uint64_t slots = 4;
    while (4 * count > 3 * slots) {
        slots *= 2;
    }
    return slots;
}

/* Accepted, but where the valid bits are too few for the slots. */
static uint32_t build(struct table *table, uint64_t answer[8])
{
    static uint32_t spare[MOST_SLOTS];
    choose_room(table, slots_for(table->listed));
    return bridgenook_table_build(table->valid, table->list, table->listed, table->region, table->slots, spare,
                                  table->spares, answer);
}

void make_table(struct table *table)
{
    uint64_t answer[8];
    table->valid = (uint8_t)any_between(3, one_in(3) ? 8 : 32);
    make_items(table);
    if (build(table, answer) != BRIDGENOOK_ACCEPTED) {
        table->listed = 0;
        build(table, answer);
    }
    table->lg = (uint8_t)answer[2];
    table->items = (uint32_t)answer[4];
}

void damage_table(struct table *table)
{
    uint32_t *slot = &table->region[any_below(table->slots)];
    switch (any_below(8)) {
    case 0:
        table->items = one_in(2) ? near(table->items) : table->items + 1;
        break;
    case 1:
        table->lg = (uint8_t)(one_in(2) ? table->lg + 1u : any_number());
        break;
    case 2:
        table->valid = (uint8_t)(one_in(2) ? table->valid - 1u : any_number());
        break;
    case 3: /* an item moved, doubled, or put beyond the slots; or one lost */
        *slot = table->region[any_below(table->slots)];
        break;
    case 4:
        *slot = (uint32_t)any_number();
        break;
    case 5:
        table->spares = other_length(table->slots);
        break;
    case 6:
        table->slots = table->spares = (size_t)any_below(table->slots);
        break;
    default: /* no empty slot at all */
        for (size_t i = 0; i < table->slots; i++) {
            table->region[i] = some_item(table);
        }
    }
}

static void damage_items(struct table *table)
{
    if (table->listed == 0) {
        table->list[table->listed++] = 0;
    }
    uint32_t *item = &table->list[any_below(table->listed)];
    switch (any_below(3)) {
    case 0:
        *item = BRIDGENOOK_EMPTY_SLOT;
        break;
    case 1:
        *item = near(item_limit(table));
        break;
    default:
        *item = table->list[any_below(table->listed)];
    }
}

/* More items than 3/4 of the slots that the valid bits allow. */
static void overfill(struct table *table)
{
    table->valid = (uint8_t)any_between(3, 5);
    for (table->listed = 0; table->listed < item_limit(table); table->listed++) {
        table->list[table->listed] = (uint32_t)table->listed;
    }
}

void damage_build(struct table *table)
{
    switch (any_below(6)) {
    case 0:
    case 1:
        damage_items(table);
        break;
    case 2:
        table->spares = other_length(table->slots);
        break;
    case 3:
        table->valid = (uint8_t)(one_in(2) ? any_below(4) : any_number());
        break;
    case 4:
        table->slots = table->spares = (size_t)any_below(table->slots);
        break;
    default:
        overfill(table);
    }
}

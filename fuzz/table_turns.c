/* The pair table: new, build, insert, delete, extraction, walk, clear. */
#include "bridgenook.h"

#include "calls.h"
#include "lending.h"
#include "random.h"
#include "tables.h"
#include "turns.h"

static struct table table;
static uint32_t *region, *spare;

static void lend_table(void)
{
    region = lend_writable(table.region, table.slots, 4);
    spare = lend_writable(NULL, table.spares, 4);
}

static void may_change_both(void)
{
    may_change(region, 4 * table.slots);
    may_change(spare, 4 * table.spares);
}

static void need_empty(const uint32_t *slots, size_t count)
{
    for (size_t i = 0; i < count; i++) {
        if (slots[i] != BRIDGENOOK_EMPTY_SLOT) {
            fault("slots that should be empty");
        }
    }
}

/* What new and clear leave. */
static void finish_emptied(uint32_t number, const uint64_t *answer)
{
    if (number == BRIDGENOOK_ACCEPTED) {
        need_empty(region, table.slots);
        need_empty(spare, table.spares);
        may_change_both();
    }
    finish(number, answer);
}

static void make_new(void)
{
    table.lg = (uint8_t)(one_in(4) ? any_number() : any_between(2, 8));
    table.valid = (uint8_t)(one_in(4) ? any_number() : any_between(table.lg % 32 + 1u, 32));
    choose_room(&table, UINT64_C(1) << table.lg % 10);
    if (one_in(6)) {
        table.slots = table.spares = (size_t)any_below(table.slots);
    }
    if (one_in(3)) {
        table.spares = other_length(table.slots);
    }
    lend_table();
    uint64_t *answer = begin(TABLE_NEW);
    uint32_t number = bridgenook_table_new(table.lg, table.valid, region, table.slots, spare, table.spares, answer);
    finish_emptied(number, answer);
}

static void clear(void)
{
    lend_table();
    uint64_t *answer = begin(TABLE_CLEAR);
    uint32_t number =
        bridgenook_table_clear(table.lg, table.valid, table.items, region, table.slots, spare, table.spares, answer);
    finish_emptied(number, answer);
}

static void build(void)
{
    const uint32_t *list = lend(table.list, table.listed, 4);
    region = lend_writable(NULL, table.slots, 4);
    spare = lend_writable(NULL, table.spares, 4);
    uint64_t *answer = begin(TABLE_BUILD);
    uint32_t number =
        bridgenook_table_build(table.valid, list, table.listed, region, table.slots, spare, table.spares, answer);
    if (number == BRIDGENOOK_ACCEPTED || number == BRIDGENOOK_NOT_ABOVE) {
        need_empty(spare, table.spares);
        may_change_both();
    }
    if (number == BRIDGENOOK_NOT_ABOVE) {
        need_empty(region, table.slots);
    }
    finish(number, answer);
}

/* Mostly one that the table holds, or another below 2^valid. */
static uint32_t item_to_change(void)
{
    if (table.listed > 0 && one_in(2)) {
        return table.list[any_below(table.listed)];
    }
    return one_in(4) ? near(item_limit(&table)) : some_item(&table);
}

typedef uint32_t change_call(uint8_t lg, uint8_t valid, uint32_t items, uint32_t *region, size_t region_length,
                             uint32_t *spare, size_t spare_length, uint32_t item, uint64_t answer[8]);

static void change(enum call call, change_call *export)
{
    uint32_t item = item_to_change();
    lend_table();
    uint64_t *answer = begin(call);
    uint32_t number =
        export(table.lg, table.valid, table.items, region, table.slots, spare, table.spares, item, answer);
    if (number == BRIDGENOOK_ACCEPTED && answer[2] == 1) {
        need_empty(spare, table.spares);
        may_change_both();
    }
    finish(number, answer);
}

typedef uint32_t listing_call(uint8_t lg, uint8_t valid, uint32_t items, const uint32_t *region, size_t region_length,
                              const uint32_t *spare, size_t spare_length, uint32_t *out, size_t out_length,
                              uint64_t answer[8]);

static void list_items(enum call call, listing_call *export)
{
    size_t room = one_in(3) ? other_length(table.listed) : table.listed;
    const uint32_t *slots = lend(table.region, table.slots, 4);
    const uint32_t *spares = lend(NULL, table.spares, 4);
    uint32_t *out = lend_writable(NULL, room, 4);
    uint64_t *answer = begin(call);
    uint32_t number =
        export(table.lg, table.valid, table.items, slots, table.slots, spares, table.spares, out, room, answer);
    if (number == BRIDGENOOK_ACCEPTED) {
        may_change(out, 4 * (size_t)answer[2]);
    }
    finish(number, answer);
}

static void call_on_table(uint64_t which)
{
    if (which < 2) {
        change(TABLE_INSERT, bridgenook_table_insert);
    } else if (which < 4) {
        change(TABLE_DELETE, bridgenook_table_delete);
    } else if (which == 4) {
        list_items(TABLE_EXTRACT, bridgenook_table_extract);
    } else if (which == 5) {
        list_items(TABLE_WALK, bridgenook_table_walk);
    } else {
        clear();
    }
}

void turn_tables(void)
{
    uint64_t which = any_below(9);
    bool is_damaged = one_in(2);
    make_table(&table);
    if (which == 0) {
        make_new();
    } else if (which == 1) {
        if (is_damaged) {
            damage_build(&table);
        }
        build();
    } else {
        if (is_damaged) {
            damage_table(&table);
        }
        call_on_table(which - 2);
    }
}

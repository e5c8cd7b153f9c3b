#include "lists.h"

#include "bridgenook.h"
#include "random.h"

/* The number after the last lawful pair. */
static uint64_t limit_at(uint8_t lg)
{
    return lg == 26 ? BRIDGENOOK_EMPTY_SLOT : UINT64_C(64) << lg;
}

void make_list(struct list *list, uint8_t lg)
{
    uint64_t limit = limit_at(lg);
    uint64_t wanted = any_below(one_in(4) ? MOST_PAIRS + 1 : 40);
    uint64_t gap = one_in(3) ? 3 : one_in(2) ? 100 : 2 * limit / (wanted + 1) + 1;
    uint64_t next = one_in(3) ? 0 : any_below(limit);
    if (one_in(3) && limit > wanted * (gap + 1) / 2) {
        next = limit - wanted * (gap + 1) / 2;
    }
    list->lg = lg;
    list->length = 0;
    while (next < limit && list->length < wanted) {
        list->pairs[list->length++] = (uint32_t)next;
        next += 1 + any_below(gap);
    }
    if (list->length > 0 && one_in(8)) {
        list->pairs[list->length - 1] = (uint32_t)(limit - 1);
    }
}

void damage_list(struct list *list)
{
    if (list->length == 0) {
        list->pairs[list->length++] = 0;
    }
    size_t at = any_below(list->length);
    uint32_t *pair = &list->pairs[at];
    switch (any_below(5)) {
    case 0: /* not above the one before */
        *pair = at == 0 ? UINT32_MAX : list->pairs[at - 1] - (uint32_t)any_below(2);
        break;
    case 1:
        *pair = near(limit_at(list->lg));
        break;
    case 2:
        *pair = BRIDGENOOK_EMPTY_SLOT;
        break;
    case 3:
        list->pairs[list->length++] = BRIDGENOOK_EMPTY_SLOT;
        break;
    default:
        *pair = (uint32_t)any_number();
    }
}

bool is_lawful(const uint32_t *pairs, size_t length, uint8_t lg)
{
    for (size_t i = 0; i < length; i++) {
        if (pairs[i] >= limit_at(lg) || (i > 0 && pairs[i] <= pairs[i - 1])) {
            return false;
        }
    }
    return true;
}

#include "random.h"

#include <string.h>

static uint64_t state;

/* SplitMix64. */
uint64_t any_number(void)
{
    uint64_t mixed = state += UINT64_C(0x9e3779b97f4a7c15);
    mixed = (mixed ^ mixed >> 30) * UINT64_C(0xbf58476d1ce4e5b9);
    mixed = (mixed ^ mixed >> 27) * UINT64_C(0x94d049bb133111eb);
    return mixed ^ mixed >> 31;
}

void start_random(uint64_t seed, uint64_t turn)
{
    state = seed;
    state = any_number() ^ turn;
    state = any_number();
}

uint64_t any_below(uint64_t limit)
{
    return any_number() % limit;
}

uint64_t any_between(uint64_t least, uint64_t most)
{
    return least + any_below(most - least + 1);
}

bool one_in(uint64_t times)
{
    return any_below(times) == 0;
}

void fill_random(void *memory, size_t bytes)
{
    uint8_t *to = memory;
    for (; bytes >= 8; bytes -= 8, to += 8) {
        uint64_t eight = any_number();
        memcpy(to, &eight, 8);
    }
    uint64_t last = any_number();
    memcpy(to, &last, bytes);
}

uint32_t near(uint64_t limit)
{
    switch (any_below(8)) {
    case 0:
        return (uint32_t)any_below(3);
    case 1:
        return UINT32_MAX - (uint32_t)any_below(3);
    case 2:
        return (uint32_t)any_number();
    case 3:
        return (uint32_t)any_below(limit + 1);
    default:
        return (uint32_t)(limit + any_below(3) - 1);
    }
}

size_t other_length(size_t right)
{
    switch (any_below(5)) {
    case 0:
        return 0;
    case 1:
        return right + 1;
    case 2:
        return right == 0 ? 1 : right - 1;
    case 3:
        return right + right;
    default:
        return (size_t)any_below(right + 5);
    }
}

uint8_t outside_lg(void)
{
    static const uint8_t lgs[] = {0, 1, 2, 3, 27, 28, 31, 32, 63, 64, 128, 255};
    return lgs[any_below(sizeof lgs)];
}

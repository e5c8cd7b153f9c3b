/* Rows, flavor, offset, phase, base bits, the bound for n pairs; bits and words. */
#include "bridgenook.h"
#include "calls.h"
#include "random.h"
#include "turns.h"

static uint8_t some_lg(void)
{
    return one_in(5) ? outside_lg() : (uint8_t)any_between(4, 26);
}

/* The coupons at which flavor, offset or phase change, in 1000ths of k. */
static uint64_t threshold(uint64_t k)
{
    static const uint64_t parts[] = {0, 94, 500, 750, 1100, 1320, 1667, 1965, 2275, 2375, 3375, 32000, 64000};
    return k * parts[any_below(sizeof parts / sizeof *parts)] / 1000;
}

typedef uint32_t one_number_call(uint8_t lg, uint32_t number, uint64_t answer[8]);

static void ask(enum call call, one_number_call *export, uint8_t lg, uint32_t number)
{
    uint64_t *answer = begin(call);
    finish(export(lg, number, answer), answer);
}

static void ask_rows(uint8_t lg)
{
    uint64_t *answer = begin(ROWS);
    finish(bridgenook_rows(lg, answer), answer);
}

static void ask_units(void)
{
    uint64_t number = one_in(2) ? any_number() : (any_number() >> any_below(64)) - any_below(2);
    bool is_bits = one_in(2);
    uint64_t *answer = begin(is_bits ? WORDS_FOR : BITS_IN);
    finish(is_bits ? bridgenook_words_for(number, answer) : bridgenook_bits_in(number, answer), answer);
}

void turn_numbers(void)
{
    uint8_t lg = some_lg();
    uint64_t k = UINT64_C(1) << lg % 32;
    switch (any_below(8)) {
    case 0:
        ask_rows(lg);
        break;
    case 1:
        ask(FLAVOR, bridgenook_determine_flavor, lg, near(threshold(k)));
        break;
    case 2:
        ask(OFFSET, bridgenook_determine_correct_offset, lg, near(threshold(k)));
        break;
    case 3:
        ask(PHASE, bridgenook_determine_pseudo_phase, lg, near(threshold(k)));
        break;
    case 4:
        ask(BASE_BITS, bridgenook_number_of_base_bits, lg, near(k));
        break;
    case 5:
        ask(MOST_BITS, bridgenook_most_bits, lg, near(one_in(2) ? k : UINT64_C(1) << 28));
        break;
    default:
        ask_units();
    }
}

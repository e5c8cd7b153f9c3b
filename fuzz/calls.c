#include "calls.h"

#include <inttypes.h>
#include <stdio.h>
#include <stdlib.h>

#include "lending.h"

enum { MOST_REFUSAL = 17 };

/* Sets of refusal numbers: one, those of a faulty pair, of a pair that is read, of a bad item, of a source. */
#define R(number) (UINT32_C(1) << (number))
#define FAULTY (R(8) | R(11) | R(10))
#define READ (R(6) | R(7) | R(8) | R(9) | R(10))
#define BAD_ITEM (R(10) | R(12))
#define SOURCE (R(1) | R(17) | R(2) | FAULTY | R(14))

/* A row of docs/REFUSALS.md: which numbers, which of these carry a place, which a bit position; how many values. */
struct rule {
    const char *name;
    uint32_t refusals;
    uint32_t with_place;
    uint32_t with_bit;
    int values;
};

static const struct rule rules[CALLS] = {
    [ROWS] = {"rows", R(1), 0, 0, 1},
    [FLAVOR] = {"determine_flavor", R(1), 0, 0, 1},
    [OFFSET] = {"determine_correct_offset", R(1) | R(17), 0, 0, 1},
    [PHASE] = {"determine_pseudo_phase", R(1), 0, 0, 1},
    [BASE_BITS] = {"number_of_base_bits", R(1), 0, 0, 1},
    [MOST_BITS] = {"most_bits", R(1) | R(4), 0, 0, 2},
    [WORDS_FOR] = {"words_for", 0, 0, 0, 1},
    [BITS_IN] = {"bits_in", 0, 0, 0, 1},
    [CHECK_BOOK] = {"check_book", R(2) | R(3), R(3), 0, 0},
    [CHECK_TABLE] = {"check_table", R(2) | R(3), R(3), 0, 0},
    [FILL_TABLE] = {"fill_table", R(2) | R(3), R(3), 0, 0},
    [PICK] = {"pick", R(2) | R(3), 0, 0, 2},
    [PRACTICE_PAIR_BOOK] = {"practice_pair_book", R(2), 0, 0, 0},
    [PRACTICE_WINDOW_BOOK] = {"practice_window_book", R(2), 0, 0, 0},
    [PRACTICE_PAIR_TABLE] = {"practice_pair_table", R(2), 0, 0, 0},
    [JUDGE_PAIRS] = {"judge_pairs", R(1) | FAULTY, FAULTY, 0, 0},
    [WRITE_PAIRS] = {"write_pairs", R(1) | R(2) | R(3) | R(4) | FAULTY | R(5), R(3) | FAULTY, 0, 2},
    [WRITE_WINDOW] = {"write_window", R(1) | R(2) | R(3) | R(5), R(3), 0, 2},
    [READ_PAIRS] = {"read_pairs", R(1) | R(2) | R(3) | R(4) | R(5) | READ, R(3) | READ, READ, 0},
    [READ_WINDOW] = {"read_window", R(1) | R(2) | R(3) | R(6), R(3) | R(6), R(6), 0},
    [TABLE_NEW] = {"table_new", R(2) | R(15) | R(5), 0, 0, 3},
    [TABLE_BUILD] = {"table_build", R(2) | R(15) | R(4) | BAD_ITEM | R(13) | R(5) | R(11), BAD_ITEM | R(11), 0, 3},
    [TABLE_INSERT] = {"table_insert", R(2) | R(15) | BAD_ITEM | R(13) | R(5), 0, 0, 4},
    [TABLE_DELETE] = {"table_delete", R(2) | R(15) | BAD_ITEM, 0, 0, 4},
    [TABLE_EXTRACT] = {"table_extract", R(2) | R(15) | R(5), 0, 0, 1},
    [TABLE_WALK] = {"table_walk", R(2) | R(15) | R(5), 0, 0, 1},
    [TABLE_CLEAR] = {"table_clear", R(2) | R(15), 0, 0, 3},
    [COUNT] = {"count", R(1) | R(2) | R(10), R(10), 0, 1},
    [SPLIT] = {"split", R(1) | R(2) | R(10) | R(5), R(10), 0, 5},
    [EXPAND] = {"expand", SOURCE, FAULTY | R(14), 0, 0},
    [NEW_UNION] = {"new_union", R(1) | R(2), 0, 0, 3},
    [MERGE] = {"merge", SOURCE | R(15) | R(16), FAULTY | R(14), 0, 3},
};

struct run run;

static uint64_t reached[CALLS][MOST_REFUSAL + 1];
static uint64_t made;
static uint64_t digest;

const char *name_of(enum call call)
{
    return rules[call].name;
}

void fault(const char *what)
{
    printf("fuzz: bridgenook_%s: %s (seed %" PRIu64 ", turn %" PRIu64 ")\n", name_of(run.call), what, run.seed,
           run.turn);
    fflush(stdout);
    exit(1);
}

uint64_t *begin(enum call call)
{
    run.call = call;
    uint64_t *answer = lend_writable(NULL, 8, sizeof *answer);
    protect_lent();
    return answer;
}

static bool all_zero(const uint64_t *from, const uint64_t *to)
{
    for (; from < to; from++) {
        if (*from != 0) {
            return false;
        }
    }
    return true;
}

static void judge_refusal(const struct rule *rule, uint32_t number, const uint64_t *answer)
{
    if (number > MOST_REFUSAL || (rule->refusals & R(number)) == 0) {
        fault("a result that it may not give");
    }
    if (answer[0] != 0 && (rule->with_place & R(number)) == 0) {
        fault("a place where the refusal has none");
    }
    if (answer[1] != 0 && (rule->with_bit & R(number)) == 0) {
        fault("a bit position where the refusal has none");
    }
    if (!all_zero(answer + 2, answer + 8)) {
        fault("values with a refusal");
    }
}

void finish(uint32_t number, const uint64_t *answer)
{
    const struct rule *rule = &rules[run.call];
    if (number != 0) {
        judge_refusal(rule, number, answer);
    } else if (!all_zero(answer, answer + 2) || !all_zero(answer + 2 + rule->values, answer + 8)) {
        fault("an accepted call with a place, a bit position, or more values than it has");
    }
    may_change(answer, 8 * sizeof *answer);
    digest = number;
    if (!take_back(&digest)) {
        fault("lent memory changed that should have stayed");
    }
    reached[run.call][number]++;
    made++;
}

uint64_t last_digest(void)
{
    return digest;
}

uint64_t calls_made(void)
{
    return made;
}

static bool is_listed(int call, int number)
{
    return number == 0 || (rules[call].refusals & R(number)) != 0;
}

int print_reached(void)
{
    int missing = 0;
    for (int call = 0; call < CALLS; call++) {
        printf("%-24s", rules[call].name);
        for (int number = 0; number <= MOST_REFUSAL; number++) {
            if (is_listed(call, number)) {
                printf("  %d: %" PRIu64, number, reached[call][number]);
            }
        }
        putchar('\n');
    }
    for (int call = 0; call < CALLS; call++) {
        for (int number = 0; number <= MOST_REFUSAL; number++) {
            if (is_listed(call, number) && reached[call][number] == 0) {
                printf("never reached: %s %d\n", rules[call].name, number);
                missing++;
            }
        }
    }
    return missing;
}

/*
 * Hostile input at the C boundary: every exported call that takes something, with lengths and contents of a seeded generator's choosing.
 *
 *     fuzz SEED seconds N      for so long
 *     fuzz SEED calls N        up to so many calls, the same in every run
 *     fuzz SEED turn N         one turn alone, to see a fault again
 *
 * Each turn's input is lent twice, ending at a guard page and beginning after one. With `heap` as a last word it is
 * lent once, in blocks of exact length for valgrind, and the inputs of gigabytes are left out.
 */
#define _DEFAULT_SOURCE
#include <inttypes.h>
#include <signal.h>
#include <stdio.h>
#include <stdlib.h>
#include <string.h>
#include <time.h>
#include <unistd.h>

#include "calls.h"
#include "lending.h"
#include "random.h"
#include "turns.h"

struct plan {
    uint64_t seconds;
    uint64_t calls;
    uint64_t first_turn;
    uint64_t turns;
    bool is_on_heap;
};

/* A touch of memory that was not lent: the one report that cannot go by fault(). */
static void report_signal(int number)
{
    static char text[200];
    int length = snprintf(text, sizeof text, "fuzz: bridgenook_%s: signal %d (seed %" PRIu64 ", turn %" PRIu64 ")\n",
                          name_of(run.call), number, run.seed, run.turn);
    ssize_t ignored = write(STDOUT_FILENO, text, (size_t)length);
    (void)ignored;
    _exit(1);
}

/* On a stack of its own, since a call may have run past the end of the other. */
static void catch_signals(void)
{
    static char stack[1 << 16];
    stack_t other = {.ss_sp = stack, .ss_size = sizeof stack};
    struct sigaction action = {.sa_handler = report_signal, .sa_flags = SA_ONSTACK};
    if (sigaltstack(&other, NULL) != 0 || sigaction(SIGSEGV, &action, NULL) != 0 ||
        sigaction(SIGBUS, &action, NULL) != 0) {
        perror("sigaction");
        exit(2);
    }
}

static void make_turn(enum placement placement)
{
    static void (*const groups[])(void) = {
        turn_numbers,      turn_books,          turn_books,  turn_pair_streams, turn_pair_streams, turn_pair_streams,
        turn_pair_streams, turn_window_streams, turn_tables, turn_tables,       turn_tables,       turn_unions,
        turn_unions,       turn_unions,
    };
    start_lending(placement);
    start_random(run.seed, run.turn);
    if (run.turn < LARGE_TURNS) {
        turn_large((int)run.turn);
    } else {
        groups[any_below(sizeof groups / sizeof *groups)]();
    }
}

static void make_turn_twice(void)
{
    make_turn(ENDS_AT_GUARD);
    uint64_t left = last_digest();
    make_turn(BEGINS_AFTER_GUARD);
    if (last_digest() != left) {
        fault("another answer, or other bytes, where the same lies elsewhere");
    }
}

static double now(void)
{
    struct timespec time;
    clock_gettime(CLOCK_MONOTONIC, &time);
    return (double)time.tv_sec + (double)time.tv_nsec / 1e9;
}

static void make_turns(const struct plan *plan)
{
    double end = now() + (double)plan->seconds;
    run.turn = plan->first_turn;
    for (uint64_t made = 0; made < plan->turns && calls_made() < plan->calls; made++, run.turn++) {
        if (plan->is_on_heap) {
            make_turn(ON_HEAP);
        } else {
            make_turn_twice();
        }
        if (made % 64 == 0 && now() >= end) {
            break;
        }
    }
}

static void use(void)
{
    fputs("usage: fuzz SEED seconds|calls|turn N [heap]\n", stderr);
    exit(2);
}

static uint64_t number_in(const char *text)
{
    char *end;
    uint64_t number = strtoull(text, &end, 10);
    if (*text == '\0' || *end != '\0') {
        use();
    }
    return number;
}

static struct plan plan_of(int count, char **words)
{
    struct plan plan = {UINT32_MAX, UINT64_MAX, 0, UINT64_MAX, count == 5};
    if (count < 4 || count > 5 || (count == 5 && strcmp(words[4], "heap") != 0)) {
        use();
    }
    uint64_t number = number_in(words[3]);
    plan.first_turn = plan.is_on_heap ? LARGE_TURNS : 0;
    if (strcmp(words[2], "seconds") == 0) {
        plan.seconds = number;
    } else if (strcmp(words[2], "calls") == 0) {
        plan.calls = number;
    } else if (strcmp(words[2], "turn") == 0) {
        plan.first_turn = number;
        plan.turns = 1;
    } else {
        use();
    }
    return plan;
}

int main(int count, char **words)
{
    struct plan plan = plan_of(count, words);
    run.seed = number_in(words[1]);
    catch_signals();
    double begun = now();
    make_turns(&plan);
    int missing = print_reached();
    printf("seed %" PRIu64 ": %" PRIu64 " calls in %.0f seconds, no fault; %d of the listed outcomes never reached\n",
           run.seed, calls_made(), now() - begun, missing);
    /* A run that is cut short, or cannot hold the inputs of gigabytes, need not reach all. */
    return missing != 0 && plan.turns != 1 && !plan.is_on_heap;
}

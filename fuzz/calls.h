/* The exported calls: what each may refuse by, how often it did, and the judgement of an answer. */
#ifndef CALLS_H
#define CALLS_H

#include <stdbool.h>
#include <stddef.h>
#include <stdint.h>

enum call {
    ROWS,
    FLAVOR,
    OFFSET,
    PHASE,
    BASE_BITS,
    MOST_BITS,
    WORDS_FOR,
    BITS_IN,
    CHECK_BOOK,
    CHECK_TABLE,
    FILL_TABLE,
    PICK,
    PRACTICE_PAIR_BOOK,
    PRACTICE_WINDOW_BOOK,
    PRACTICE_PAIR_TABLE,
    JUDGE_PAIRS,
    WRITE_PAIRS,
    WRITE_WINDOW,
    READ_PAIRS,
    READ_WINDOW,
    TABLE_NEW,
    TABLE_BUILD,
    TABLE_INSERT,
    TABLE_DELETE,
    TABLE_EXTRACT,
    TABLE_WALK,
    TABLE_CLEAR,
    COUNT,
    SPLIT,
    EXPAND,
    NEW_UNION,
    MERGE,
    CALLS
};

/* The run as it stands, for reports of a fault. */
struct run {
    uint64_t seed;
    uint64_t turn;
    enum call call;
};

extern struct run run;

const char *name_of(enum call call);

/* Names the fault with call, seed and turn, and ends the program. */
void fault(const char *what);

/* The answer, full of garbage; lent after the other parts, and everything lent is then protected. */
uint64_t *begin(enum call call);

/* Judges result and answer of the call that was begun, takes back what was lent, and counts. */
void finish(uint32_t number, const uint64_t *answer);

/* What the last call left, as one number. */
uint64_t last_digest(void);

/* How often each call was accepted (0) and refused by each number, and which of these never. Answers how many never. */
int print_reached(void);
uint64_t calls_made(void);

#endif

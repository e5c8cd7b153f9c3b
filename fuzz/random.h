/* The seeded generator. Each turn starts it anew, so that a turn can be made again by its number. */
#ifndef RANDOM_H
#define RANDOM_H

#include <stdbool.h>
#include <stddef.h>
#include <stdint.h>

void start_random(uint64_t seed, uint64_t turn);
uint64_t any_number(void);

/* From 0 up, below a limit that is not 0. */
uint64_t any_below(uint64_t limit);
/* Both ends included. */
uint64_t any_between(uint64_t least, uint64_t most);
bool one_in(uint64_t times);
void fill_random(void *memory, size_t bytes);

/* A number at or beside a limit, an end of the range, or anything. */
uint32_t near(uint64_t limit);
/* A length that is mostly not this one, and is at most twice as long or a little more. */
size_t other_length(size_t right);
/* An lg_k outside 4..26. */
uint8_t outside_lg(void);

#endif

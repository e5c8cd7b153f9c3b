/*
 * Memory as it is lent to a call. On pages, each part lies so that it ends exactly at a page that may not be touched,
 * or begins exactly after one, and const parts may not be written during the call. On the heap, each part is a block of
 * its exact length, for valgrind.
 */
#ifndef LENDING_H
#define LENDING_H

#include <stdbool.h>
#include <stddef.h>
#include <stdint.h>

enum placement { ENDS_AT_GUARD, BEGINS_AFTER_GUARD, ON_HEAP };

/* The most bytes of a part that is not sparse. */
enum { MOST_BYTES = 1 << 20 };

void start_lending(enum placement placement);

/* A copy of the content is lent: const, or for the call to write. Garbage is, if the content is NULL. */
const void *lend(const void *content, size_t count, size_t size);
void *lend_writable(const void *content, size_t count, size_t size);

/*
 * Zeros that take no memory while nobody writes them, ending at a guard page. Whatever the call's parameter says, they
 * may not be written during it, so they serve only calls that are refused.
 */
void *lend_sparse(size_t count, size_t size);

/* Between the last part that is lent and the call. */
void protect_lent(void);

/* After the call: so many bytes at the front of a part may have changed. Nothing may where this is not said. */
void may_change(const void *part, size_t bytes);

/* Takes everything back. Answers whether what should have stayed did, and adds what changed to a digest. */
bool take_back(uint64_t *digest);

#endif

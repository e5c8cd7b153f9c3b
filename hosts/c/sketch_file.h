/*
 * Sketches in files. The format is the host programs' own, and no crate's; all numbers are little-endian:
 *
 *     bytes 0..6     "nook v1"
 *     byte  7        lg_k
 *     bytes 8..15    seed
 *     bytes 16..19   coupons
 *     bytes 20..23   number of listed pairs
 *     bytes 24..27   bytes of the stream of pairs
 *     bytes 28..31   bytes of the stream of the window, 0 if the coupons make the sketch Empty or Sparse
 *     bytes 32..     the stream of pairs, then the stream of the window, in practice books; nothing after them
 */
#ifndef SKETCH_FILE_H
#define SKETCH_FILE_H

#include <stdbool.h>

#include "bridgenook.h"

enum { HEAD_BYTES = 32 };

/* A sketch in memory: its coupons, its window (of no bytes if Empty or Sparse) and its list. */
struct sketch {
    uint8_t lg;
    uint64_t seed;
    uint32_t coupons;
    uint32_t *pairs;
    size_t pairs_length;
    uint8_t *window;
    size_t window_length;
};

/* The practice books, and what decodes them. */
struct books {
    uint16_t pair_book[BRIDGENOOK_PAIR_BOOK];
    uint16_t pair_table[BRIDGENOOK_DECODING_TABLE];
    uint16_t window_book[BRIDGENOOK_WINDOW_BOOK];
    uint16_t window_table[BRIDGENOOK_DECODING_TABLE];
};

/* A file as it lies on the disk. */
struct file_bytes {
    uint8_t *bytes;
    size_t length;
};

/* Nothing is wrong if there is no trouble and the number is 0. */
struct verdict {
    const char *trouble; /* what the host itself finds wrong, or NULL */
    uint32_t number;     /* what the library refuses by, with place and bit */
    uint64_t place;
    uint64_t bit;
};

bool is_fine(struct verdict verdict);
struct verdict troubled(const char *trouble);
struct verdict answered(uint32_t number, const uint64_t answer[8]);

/* Memory for so many elements, also for none: never NULL, since no lent part may be. Without any the program ends. */
void *reserve(size_t count, size_t size);

void put_number(uint8_t *bytes, int count, uint64_t value);
uint64_t get_number(const uint8_t *bytes, int count);

void make_books(struct books *books);

struct verdict save_file(const char *path, struct file_bytes file);
struct verdict load_file(const char *path, struct file_bytes *file);

/* Both leave memory to be freed where the verdict is fine, and none where it is not. */
struct verdict sketch_to_bytes(const struct books *books, const struct sketch *sketch, struct file_bytes *file);
struct verdict sketch_from_bytes(const struct books *books, struct file_bytes file, struct sketch *sketch);
void free_sketch(struct sketch *sketch);

#endif

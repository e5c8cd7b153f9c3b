/* Books with their decoding tables: random ones that pass the check, the practice books, and damaged ones. */
#ifndef BOOKS_H
#define BOOKS_H

#include <stddef.h>
#include <stdint.h>

#include "bridgenook.h"

/* With room for lengths that are wrong. */
struct book {
    uint16_t entries[3 * BRIDGENOOK_WINDOW_BOOK];
    size_t length;
    uint16_t table[3 * BRIDGENOOK_DECODING_TABLE];
    size_t table_length;
};

/* One that passes, of 65 or 256 symbols, with the table that is its own. */
void make_book(struct book *book, size_t symbols);

/* Mostly so that book or table is refused: a wrong length, an entry of wrong shape, a code twice, another's table. */
void damage_book(struct book *book);

unsigned code_length(uint16_t entry);
unsigned codeword(uint16_t entry);

#endif

#include "books.h"

#include <string.h>

#include "random.h"

unsigned code_length(uint16_t entry)
{
    return entry / 4096;
}

unsigned codeword(uint16_t entry)
{
    return entry % 4096;
}

static uint16_t entry_of(unsigned length, unsigned code)
{
    return (uint16_t)(length * 4096 + code);
}

static void swap_entries(uint16_t *one, uint16_t *other)
{
    uint16_t kept = *one;
    *one = *other;
    *other = kept;
}

/* Codes are cut in two until there are enough: a code of l bits becomes the two of l + 1 bits that end in it. */
static void grow_codes(uint16_t *entries, size_t symbols)
{
    entries[0] = entry_of(1, 0);
    entries[1] = entry_of(1, 1);
    /* A code that is as long as it may be is passed over; skewed books take the newest code. */
    bool is_skewed = one_in(3);
    for (size_t made = 2; made < symbols;) {
        size_t chosen = is_skewed && !one_in(4) ? made - 1 : any_below(made);
        unsigned length = code_length(entries[chosen]), code = codeword(entries[chosen]);
        if (length < 12) {
            entries[chosen] = entry_of(length + 1, code);
            entries[made++] = entry_of(length + 1, code | 1u << length);
        }
    }
    for (size_t i = symbols - 1; i > 0; i--) {
        swap_entries(&entries[i], &entries[any_below(i + 1)]);
    }
}

static void fill_own_table(struct book *book)
{
    for (size_t symbol = 0; symbol < book->length; symbol++) {
        unsigned length = code_length(book->entries[symbol]);
        for (unsigned number = codeword(book->entries[symbol]); number < 4096; number += 1u << length) {
            book->table[number] = (uint16_t)(length * 256 + symbol);
        }
    }
    book->table_length = BRIDGENOOK_DECODING_TABLE;
}

void make_book(struct book *book, size_t symbols)
{
    uint64_t answer[8];
    book->length = symbols;
    if (!one_in(4)) {
        grow_codes(book->entries, symbols);
    } else if (symbols == BRIDGENOOK_PAIR_BOOK) {
        bridgenook_practice_pair_book(book->entries, symbols, answer);
    } else {
        bridgenook_practice_window_book(book->entries, symbols, answer);
    }
    fill_own_table(book);
}

static void damage_entry(struct book *book)
{
    uint16_t *entry = &book->entries[any_below(book->length)];
    switch (any_below(5)) {
    case 0: /* a length of 0, or over 12 */
        *entry = entry_of(one_in(2) ? 0 : (unsigned)any_between(13, 15), codeword(*entry));
        break;
    case 1: /* a codeword not below 2^length */
        *entry |= (uint16_t)(1u << code_length(*entry) % 12);
        break;
    case 2: /* a code twice */
        *entry = book->entries[any_below(book->length)];
        break;
    case 3:
        *entry = (uint16_t)any_number();
        break;
    default:
        *entry ^= (uint16_t)(1u << any_below(16));
    }
}

static void damage_table(struct book *book)
{
    uint16_t *entry = &book->table[any_below(BRIDGENOOK_DECODING_TABLE)];
    switch (any_below(3)) {
    case 0:
        *entry ^= (uint16_t)(1u << any_below(16));
        break;
    case 1:
        *entry = (uint16_t)any_number();
        break;
    default: /* the table of a book in which two symbols are exchanged */
        swap_entries(&book->entries[0], &book->entries[any_between(1, book->length - 1)]);
    }
}

void damage_book(struct book *book)
{
    switch (any_below(4)) {
    case 0:
        /* often the other lawful one */
        book->length = one_in(2) ? BRIDGENOOK_PAIR_BOOK + BRIDGENOOK_WINDOW_BOOK - book->length
                                 : other_length(book->length);
        break;
    case 1:
        book->table_length = other_length(book->table_length);
        break;
    case 2:
        damage_entry(book);
        break;
    default:
        damage_table(book);
    }
}

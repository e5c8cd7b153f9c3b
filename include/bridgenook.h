/*
 * Bridgenook reads, writes and merges CPC sketches. The library behind this header is proved in Rattle: every call, on
 * every input, ends in a result or in a numbered refusal, and leaves the memory that it is lent exactly as said here.
 * Link it statically: build/libbridgenook.a. "Document 01" is the gallery's page of exact rules; docs/REFUSALS.md and
 * docs/PROMISES.md repeat them.
 *
 * HOW A CALL ANSWERS
 *
 * The result is 0 if the call is accepted, else the number of the one refusal that document 01's order puts first.
 * Below, a call's refusals stand in that order. `answer` is eight numbers and is always written whole:
 *
 *     answer[0]      the place of a refusal: the index of a pair, item, byte, symbol or row; 0 where it has none
 *     answer[1]      the bit position of a reader's refusal by 6 to 10; else 0
 *     answer[2..7]   the values of an accepted call; zeros where it has fewer, and on a refusal
 *
 * A refusal leaves everything else that was lent as it was. There are two exceptions, said again at the calls: a
 * reader's output keeps the items before the fault, and a duplicate in bridgenook_table_build leaves region and spare
 * all empty slots. Output past the part that a call says it writes always stays.
 *
 * WHAT THE CALLER MUST GIVE
 *
 * A lent part is a pointer and the number of its elements. Each pointer must be valid for that many elements, for
 * reading, and where it is not const for writing too, and aligned for its element; `answer` for eight numbers. A part
 * that is not const may overlap no other part, nor `answer`; const parts may overlap each other. Until the call
 * returns, nothing else may write to a const part, nor read or write one that is not const. A part of no elements may
 * be any aligned pointer that is not NULL; nothing is read or written through it. Nothing else is asked: every number,
 * length and content is judged, and what a call only writes may hold anything before.
 *
 * The calls keep nothing between them and reserve no memory: the archive has no writable data, and asks the linker for
 * nothing but the C library's memory functions (hosts/run looks this up; for x86-64 it is memset alone). So
 * calls may run in several threads at once, each on memory of its own; memory that they only read they may share.
 *
 * WORDS
 *
 * k is 2^lg_k, with lg_k (here `lg`) from 4 to 26. A pair is 64 * row + column, with its row below k and its column
 * below 64. A sketch's coupons are its pairs. A matrix is k words, one for each row, in which bit c stands for column
 * c. A stream is bytes: bits fill little-endian words of 32 bits from the low end.
 */
#ifndef BRIDGENOOK_H
#define BRIDGENOOK_H

#include <stddef.h>
#include <stdint.h>

#ifdef __cplusplus
extern "C" {
#endif

/*
 * The version of this header, and of the archive that it goes with: a new call, value or refusal number raises MINOR,
 * a change of what stands raises MAJOR. bridgenook_version answers that of the archive that is linked.
 */
#define BRIDGENOOK_VERSION_MAJOR 1
#define BRIDGENOOK_VERSION_MINOR 0
#define BRIDGENOOK_VERSION_PATCH 0
#define BRIDGENOOK_VERSION                                                                                             \
    (BRIDGENOOK_VERSION_MAJOR * 1000000 + BRIDGENOOK_VERSION_MINOR * 1000 + BRIDGENOOK_VERSION_PATCH)

uint32_t bridgenook_version(void);

/* The result of a call: document 01's refusal numbers. A later version may have more of them. */
enum bridgenook_result {
    BRIDGENOOK_ACCEPTED = 0,
    BRIDGENOOK_LG_OUTSIDE = 1,         /* an lg_k outside 4..26 */
    BRIDGENOOK_WRONG_LENGTH = 2,       /* a lent part of wrong length */
    BRIDGENOOK_WRONG_BOOK = 3,         /* the book fails the check, the table is not its own, or no such phase */
    BRIDGENOOK_TOO_MANY_PAIRS = 4,     /* more than 2^28 pairs */
    BRIDGENOOK_NO_ROOM = 5,            /* output or table region shorter than needed */
    BRIDGENOOK_STREAM_ENDS = 6,        /* the stream ends inside a read */
    BRIDGENOOK_ROW_STEP_TOO_LARGE = 7, /* the row step is 2^32 or more */
    BRIDGENOOK_ROW_NOT_BELOW = 8,      /* the row is not below k */
    BRIDGENOOK_COLUMN_NOT_BELOW = 9,   /* the column is not below 64 */
    BRIDGENOOK_RESERVED = 10,          /* the reserved number, or its bit in a matrix at lg_k 26 */
    BRIDGENOOK_NOT_ABOVE = 11,         /* a pair not above the one before; in a table build, a duplicate */
    BRIDGENOOK_ITEM_NOT_BELOW = 12,    /* an item not below 2^(valid bits) */
    BRIDGENOOK_CANNOT_GROW = 13,       /* the table must grow, but to an lg over 26 or not below the valid bits */
    BRIDGENOOK_WRONG_WINDOW = 14,      /* a window bit past column 63, or a listed pair inside the window's columns */
    BRIDGENOOK_NOT_LAWFUL = 15,        /* the lent state is not lawful */
    BRIDGENOOK_SEEDS_DIFFER = 16,      /* the seeds differ */
    BRIDGENOOK_WRONG_COUPONS = 17      /* the stated coupons differ from those held, or exceed 64k */
};

/* The flavors of a sketch, as bridgenook_determine_flavor and bridgenook_split answer them. */
enum bridgenook_flavor {
    BRIDGENOOK_FLAVOR_EMPTY = 0,
    BRIDGENOOK_FLAVOR_SPARSE = 1,
    BRIDGENOOK_FLAVOR_HYBRID = 2,
    BRIDGENOOK_FLAVOR_PINNED = 3,
    BRIDGENOOK_FLAVOR_SLIDING = 4
};

/* The lengths, in entries, that the calls on books ask for. */
enum bridgenook_length {
    BRIDGENOOK_PAIR_BOOK = 65,
    BRIDGENOOK_WINDOW_BOOK = 256,
    BRIDGENOOK_BOOK_SET = 5632,
    BRIDGENOOK_DECODING_TABLE = 4096
};

/* The empty slot of a pair table, and the reserved number: never a pair and never an item. */
#define BRIDGENOOK_EMPTY_SLOT 4294967295u

/* A refusal number in plain words, for people: not which part of the call it is about. 0 is no refusal. */
static inline const char *bridgenook_words(uint32_t number)
{
    switch (number) {
    case 0:
        return "accepted";
    case 1:
        return "lg_k is outside 4..26";
    case 2:
        return "a lent part has the wrong length";
    case 3:
        return "the book fails the check, the decoding table is not that book's, or there is no such phase";
    case 4:
        return "there are more than 2^28 pairs";
    case 5:
        return "the output or the table's region is shorter than needed";
    case 6:
        return "the stream ends inside a read";
    case 7:
        return "the row step is 2^32 or more";
    case 8:
        return "the row is not below k";
    case 9:
        return "the column is not below 64";
    case 10:
        return "the reserved number 4294967295, or its bit in a matrix";
    case 11:
        return "a pair is not above the one before, or an item stands earlier in the list already";
    case 12:
        return "the item is not below 2^(valid bits)";
    case 13:
        return "the table must grow, but its new lg would pass 26 or not be below the valid bits";
    case 14:
        return "a window bit lies past column 63, or a listed pair inside the window's columns";
    case 15:
        return "the lent state is not lawful";
    case 16:
        return "the seeds differ";
    case 17:
        return "the stated coupons differ from those held, or exceed 64k";
    default:
        return "unknown refusal";
    }
}

/* ---- Numbers. These calls write nothing but `answer`. ---- */

/*
 * The rows of a sketch.
 * Refuses: 1 if lg is outside 4..26.
 * Values: [2] k.
 */
uint32_t bridgenook_rows(uint8_t lg, uint64_t answer[8]);

/*
 * The flavor of a sketch with so many coupons C, whatever their number: Empty if C is 0, Sparse if 32C < 3k, Hybrid if
 * 2C < k, Pinned if 8C < 27k, else Sliding.
 * Refuses: 1 if lg is outside 4..26.
 * Values: [2] the flavor, a bridgenook_flavor.
 */
uint32_t bridgenook_determine_flavor(uint8_t lg, uint32_t coupons, uint64_t answer[8]);

/*
 * The offset of the window of a sketch with so many coupons C: 0 if 8C < 19k, else floor((8C - 19k) / 8k).
 * Refuses: 1 if lg is outside 4..26; 17 if the coupons exceed 64k.
 * Values: [2] the offset, 0 to 61.
 */
uint32_t bridgenook_determine_correct_offset(uint8_t lg, uint32_t coupons, uint64_t answer[8]);

/*
 * The phase of a sketch with so many coupons, whatever their number: which window book of a set serves it.
 * Refuses: 1 if lg is outside 4..26.
 * Values: [2] the phase, 0 to 21.
 */
uint32_t bridgenook_determine_pseudo_phase(uint8_t lg, uint32_t coupons, uint64_t answer[8]);

/*
 * The low bits b of a row step that a stream of so many pairs n holds as they are, whatever their number: 0 if n is 0
 * or more than k, else floor(log2(floor(k / n))).
 * Refuses: 1 if lg is outside 4..26.
 * Values: [2] b, 0 to 26.
 */
uint32_t bridgenook_number_of_base_bits(uint8_t lg, uint32_t pairs, uint64_t answer[8]);

/*
 * The bits that no stream of so many pairs n ever passes, for sizing output: n(15 + b) + 10, and 0 for no pairs. Given
 * 4 bytes for each of the words, bridgenook_write_pairs never refuses a lawful list by 5.
 * Refuses: 1 if lg is outside 4..26; 4 if there are more than 2^28 pairs.
 * Values: [2] the bits, [3] the words of 32 bits that they fill.
 */
uint32_t bridgenook_most_bits(uint8_t lg, uint32_t pairs, uint64_t answer[8]);

/* ---- Bits and words of 32 bits. These calls refuse nothing and write nothing but `answer`. ---- */

/*
 * The words that so many bits fill, the last one with zeros.
 * Values: [2] the words.
 */
uint32_t bridgenook_words_for(uint64_t bits, uint64_t answer[8]);

/*
 * The bits of so many words, or the largest uint64_t where 32 times the words does not fit one.
 * Values: [2] the bits.
 */
uint32_t bridgenook_bits_in(uint64_t words, uint64_t answer[8]);

/* ---- Books. ----
 *
 * A book gives each symbol a code: entry s is length * 4096 + codeword, length 1 to 12, codeword below 2^length. A book
 * for pairs has 65 entries, one for a window 256. It passes the check exactly if every entry has that shape and each
 * number below 4,096 has exactly one symbol whose codeword is its low bits. Its decoding table then holds length * 256
 * + symbol at that number. A book set is 22 window books end to end, one for each phase.
 */

/*
 * The check of a book.
 * Refuses: 2 if it has neither 65 nor 256 entries; 3 if it fails the check, with the first symbol of wrong shape as the
 *     place, or 0 if all have their shape.
 * Values: none. Writes nothing but `answer`.
 */
uint32_t bridgenook_check_book(const uint16_t *book, size_t book_length, uint64_t answer[8]);

/*
 * The check of a book together with a decoding table.
 * Refuses: 2 if the book has neither 65 nor 256 entries, or the table not 4,096; 3 if the book fails the check, with
 *     the place as in bridgenook_check_book, or if the table is not that book's, with place 0.
 * Values: none. Writes nothing but `answer`.
 */
uint32_t bridgenook_check_table(const uint16_t *book, size_t book_length, const uint16_t *table, size_t table_length,
                                uint64_t answer[8]);

/*
 * Fills the decoding table of a book.
 * Refuses: 2 if the book has neither 65 nor 256 entries, or the table not 4,096; 3 as bridgenook_check_book.
 * Values: none.
 * Writes: the table, whole, if accepted.
 */
uint32_t bridgenook_fill_table(const uint16_t *book, size_t book_length, uint16_t *table, size_t table_length,
                               uint64_t answer[8]);

/*
 * Where the book of a phase lies in a book set. The book itself is not judged.
 * Refuses: 2 if the set has not 5,632 entries; 3 if the phase is over 21, with place 0.
 * Values: [2] the index at which the book starts, [3] its length, 256.
 * Writes nothing but `answer`.
 */
uint32_t bridgenook_pick(const uint16_t *set, size_t set_length, uint8_t phase, uint64_t answer[8]);

/* ---- Practice books: document 01's, until the galleries' own book files arrive. ---- */

/*
 * The practice book for pairs.
 * Refuses: 2 if out has not 65 entries.
 * Values: none.
 * Writes: out, whole, if accepted.
 */
uint32_t bridgenook_practice_pair_book(uint16_t *out, size_t out_length, uint64_t answer[8]);

/*
 * The practice book for windows. Its decoding table comes from bridgenook_fill_table.
 * Refuses: 2 if out has not 256 entries.
 * Values: none.
 * Writes: out, whole, if accepted.
 */
uint32_t bridgenook_practice_window_book(uint16_t *out, size_t out_length, uint64_t answer[8]);

/*
 * The decoding table of the practice book for pairs.
 * Refuses: 2 if out has not 4,096 entries.
 * Values: none.
 * Writes: out, whole, if accepted.
 */
uint32_t bridgenook_practice_pair_table(uint16_t *out, size_t out_length, uint64_t answer[8]);

/* ---- Lists of pairs, and streams of pairs and of windows. ---- */

/*
 * Judges a list: each pair lawful and above the one before.
 * Refuses: 1 if lg is outside 4..26; then by the first faulty pair, with its index: 8 if its row is not below k, 11 if
 *     it is not above the pair before, 10 if it is the reserved number.
 * Values: none. Writes nothing but `answer`.
 */
uint32_t bridgenook_judge_pairs(uint8_t lg, const uint32_t *pairs, size_t pairs_length, uint64_t answer[8]);

/*
 * Writes a list of pairs as a stream. No pairs are 0 bits and 0 words, and nothing is written.
 * Refuses: 1 if lg is outside 4..26; 2 if the book has not 65 entries; 3 if it fails the check, with the place as in
 *     bridgenook_check_book; 4 if there are more than 2^28 pairs; 8, 11 or 10 by the first faulty pair, with its index,
 *     as bridgenook_judge_pairs; 5 if out has not 4 bytes for each word.
 * Values: [2] the bits of the stream, pad included, [3] its words.
 * Writes: 4 * [3] bytes at the front of out, if accepted.
 */
uint32_t bridgenook_write_pairs(const uint16_t *book, size_t book_length, uint8_t lg, const uint32_t *pairs,
                                size_t pairs_length, uint8_t *out, size_t out_length, uint64_t answer[8]);

/*
 * Writes a window of k bytes as a stream.
 * Refuses: 1 if lg is outside 4..26; 2 if the book has not 256 entries or the window not k bytes; 3 if the book fails
 *     the check, with the place as in bridgenook_check_book; 5 if out has not 4 bytes for each word.
 * Values: [2] the bits of the stream, pad included, never more than 12k + 11, [3] its words.
 * Writes: 4 * [3] bytes at the front of out, if accepted.
 */
uint32_t bridgenook_write_window(const uint16_t *book, size_t book_length, uint8_t lg, const uint8_t *window,
                                 size_t window_length, uint8_t *out, size_t out_length, uint64_t answer[8]);

/*
 * Reads `count` pairs from a stream. What it reads is lawful and strictly increasing. Pad bits, bytes after the last
 * needed word, and bytes at the end that make no whole word decide nothing. A stream of s bytes, whoever wrote it, is
 * never accepted for more than 4s pairs, so no memory need be reserved for a larger claim.
 * Refuses: 1 if lg is outside 4..26; 2 if the book has not 65 entries, the table not 4,096, or the stream has more than
 *     2^30 bytes; 3 as bridgenook_check_table; 4 if count is more than 2^28; 5 if out has fewer than count entries;
 *     then for each pair: 6 if the stream ends inside a read, 7 if the row step is 2^32 or more, 8 if the row is not
 *     below k, 9 if the column is not below 64, 10 if it is the reserved number.
 * Place and bit: of 6 to 10 the pair's index; the bit is the first of the look that failed for 6, and the one after the
 *     pair for 7 to 10.
 * Values: none.
 * Writes: count pairs at the front of out, if accepted; on 6 to 10 the pairs before the fault, place of them.
 */
uint32_t bridgenook_read_pairs(const uint16_t *book, size_t book_length, const uint16_t *table, size_t table_length,
                               uint8_t lg, uint32_t count, const uint8_t *stream, size_t stream_length, uint32_t *out,
                               size_t out_length, uint64_t answer[8]);

/*
 * Reads the k bytes of a window from a stream. What decides nothing is as in bridgenook_read_pairs.
 * Refuses: 1 if lg is outside 4..26; 2 if the book has not 256 entries, the table not 4,096, the window not k bytes, or
 *     the stream has more than 2^30 bytes; 3 as bridgenook_check_table; 6 if the stream ends inside a read.
 * Place and bit: of 6 the byte's index, and the first bit of the look that failed.
 * Values: none.
 * Writes: the window, whole, if accepted; on 6 the bytes before the fault, place of them.
 */
uint32_t bridgenook_read_window(const uint16_t *book, size_t book_length, const uint16_t *table, size_t table_length,
                                uint8_t lg, const uint8_t *stream, size_t stream_length, uint8_t *window,
                                size_t window_length, uint64_t answer[8]);

/* ---- The pair table. ----
 *
 * A set of items below 2^valid, in 2^lg slots at the front of a region. Its record is three numbers, lg, valid bits and
 * items; a call takes them, and answers the new ones where it may change them. Beside the region goes a spare of the
 * same length, room for a rebuild, which may hold anything.
 *
 * A table is lawful if lg is 2 to 26 and valid lg + 1 to 32; the region is no shorter than the slots and empty beyond
 * them; each item is below 2^valid and found at its own slot by the search, which begins at item >> (valid - lg) and
 * steps by one, wrapping; there are `items` of them; and 4 * items <= 3 * slots. Every accepted call leaves it lawful.
 * Places are 0 but where said.
 */

/*
 * Makes an empty table.
 * Refuses: 2 if region and spare have not the same length; 15 if lg is outside 2..26 or valid outside lg + 1..32; 5 if
 *     the region is shorter than 2^lg.
 * Values: [2] lg, [3] valid bits, [4] items, which is 0.
 * Writes: region and spare, all empty slots, if accepted.
 */
uint32_t bridgenook_table_new(uint8_t lg, uint8_t valid, uint32_t *region, size_t region_length, uint32_t *spare,
                              size_t spare_length, uint64_t answer[8]);

/*
 * Makes a table of the items of a list, in any order, with the least lg from 2 up for which 4 * items <= 3 * slots.
 * Refuses: 2 if region and spare have not the same length; 15 if valid is outside 3..32; 4 if the list has more than
 *     2^28 items; then by the first bad item, with its index: 10 if it is the empty slot's number, 12 if it is not
 *     below 2^valid; 13 if that lg would pass 26 or not be below valid; 5 if the region is shorter than the slots; 11
 *     if an item stands twice, with the least index whose item stands earlier in the list.
 * Values: [2] lg, [3] valid bits, [4] items.
 * Writes: the table into the region, empty beyond its slots, and the spare, all empty slots, if accepted; on 11 region
 *     and spare, all empty slots.
 */
uint32_t bridgenook_table_build(uint8_t valid, const uint32_t *list, size_t list_length, uint32_t *region,
                                size_t region_length, uint32_t *spare, size_t spare_length, uint64_t answer[8]);

/*
 * Puts an item into a table; the table doubles if 4 * items > 3 * slots then.
 * Refuses: 2 if region and spare have not the same length; 15 if the table is not lawful; 10 if the item is the empty
 *     slot's number; 12 if it is not below 2^valid; and where it is absent and the table must double: 13 if the new lg
 *     would pass 26 or not be below valid, 5 if the region is shorter than the new slots.
 * Values: [2] 1 if the item was absent, with the new [3] lg, [4] valid bits, [5] items; [2] 0 if it was present, and
 *     zeros.
 * Writes: the changed table, and the spare, all empty slots, if [2] is 1; nothing if it is 0.
 */
uint32_t bridgenook_table_insert(uint8_t lg, uint8_t valid, uint32_t items, uint32_t *region, size_t region_length,
                                 uint32_t *spare, size_t spare_length, uint32_t item, uint64_t answer[8]);

/*
 * Takes an item out of a table; the table halves while 4 * items < slots and lg > 2.
 * Refuses: 2 if region and spare have not the same length; 15 if the table is not lawful; 10 if the item is the empty
 *     slot's number; 12 if it is not below 2^valid.
 * Values: [2] 1 if the item was present, with the new [3] lg, [4] valid bits, [5] items; [2] 0 if it was absent, and
 *     zeros.
 * Writes: the changed table, and the spare, all empty slots, if [2] is 1; nothing if it is 0.
 */
uint32_t bridgenook_table_delete(uint8_t lg, uint8_t valid, uint32_t items, uint32_t *region, size_t region_length,
                                 uint32_t *spare, size_t spare_length, uint32_t item, uint64_t answer[8]);

/*
 * Lists a table's items in slot order, but that items before the first empty slot whose bit valid - 1 is set go to the
 * end, backwards. Of the spare only its length counts.
 * Refuses: 2 if region and spare have not the same length; 15 if the table is not lawful; 5 if out has fewer entries
 *     than the table items.
 * Values: [2] the number of items.
 * Writes: the items at the front of out, if accepted.
 */
uint32_t bridgenook_table_extract(uint8_t lg, uint8_t valid, uint32_t items, const uint32_t *region,
                                  size_t region_length, const uint32_t *spare, size_t spare_length, uint32_t *out,
                                  size_t out_length, uint64_t answer[8]);

/*
 * Lists a table's items in the order of the merge walk: from slot 0 by a fixed odd stride, which meets each slot once.
 * Of the spare only its length counts.
 * Refuses, values and what it writes: as bridgenook_table_extract.
 */
uint32_t bridgenook_table_walk(uint8_t lg, uint8_t valid, uint32_t items, const uint32_t *region, size_t region_length,
                               const uint32_t *spare, size_t spare_length, uint32_t *out, size_t out_length,
                               uint64_t answer[8]);

/*
 * Empties a table, which keeps its lg and its valid bits.
 * Refuses: 2 if region and spare have not the same length; 15 if the table is not lawful.
 * Values: [2] lg, [3] valid bits, [4] items, which is 0.
 * Writes: region and spare, all empty slots, if accepted.
 */
uint32_t bridgenook_table_clear(uint8_t lg, uint8_t valid, uint32_t items, uint32_t *region, size_t region_length,
                                uint32_t *spare, size_t spare_length, uint64_t answer[8]);

/* ---- Matrices and unions. ----
 *
 * A sketch is stored as its coupons, a window and a list of pairs. Its coupons decide flavor and offset o. Empty and
 * Sparse have no window, and list every pair. The others have a window of k bytes, in which bit i of byte r stands for
 * row r and column o + i; of the columns outside the window they list the pairs that surprise: those present from
 * column o + 8 on, and those absent below column o.
 */

/*
 * The coupons of a matrix.
 * Refuses: 1 if lg is outside 4..26; 2 if the matrix has not k words; 10 if it has the reserved number's bit (lg 26,
 *     row 67108863, column 63), with that row.
 * Values: [2] the coupons.
 * Writes nothing but `answer`.
 */
uint32_t bridgenook_count(uint8_t lg, const uint64_t *matrix, size_t matrix_length, uint64_t answer[8]);

/*
 * Splits a matrix into a window and an increasing list of pairs, with the offset of the matrix's own coupons. The
 * window that is lent always has k bytes. A list never has more than 64k pairs.
 * Refuses: 1 if lg is outside 4..26; 2 if the matrix has not k words or the window not k bytes; 10 if the matrix has
 *     the reserved number's bit, with its row 67108863; 5 if pairs has fewer entries than the list.
 * Values: [2] the coupons, [3] the flavor, [4] the offset, [5] the first interesting column, 64 if nothing is listed,
 *     [6] the number of listed pairs.
 * Writes: the list, [6] pairs at the front of pairs, and the window, whole, if accepted; the window stays as it was if
 *     the flavor is Empty or Sparse.
 */
uint32_t bridgenook_split(uint8_t lg, const uint64_t *matrix, size_t matrix_length, uint8_t *window,
                          size_t window_length, uint32_t *pairs, size_t pairs_length, uint64_t answer[8]);

/*
 * Expands a sketch into its matrix: the split undone. The window is lent with no bytes if the coupons make the sketch
 * Empty or Sparse, else with k.
 * Refuses: 1 if lg is outside 4..26; 17 if the coupons exceed 64k; 2 if the matrix has not k words, or the window not
 *     the bytes that its flavor asks for; 8, 11 or 10 by the first faulty pair, with its index, as
 *     bridgenook_judge_pairs; 14 if a window bit lies past column 63, with the first such row, then if a listed pair
 *     lies inside the window's columns, with its index (neither if Empty or Sparse); 10 if the window has the reserved
 *     number's bit, with its row 67108863; 17 if the coupons are not those that window and list hold.
 * Values: none.
 * Writes: the matrix, whole, if accepted.
 */
uint32_t bridgenook_expand(uint8_t lg, uint32_t coupons, const uint8_t *window, size_t window_length,
                           const uint32_t *pairs, size_t pairs_length, uint64_t *matrix, size_t matrix_length,
                           uint64_t answer[8]);

/*
 * Makes an empty union. Its record is three numbers, the configured lg_k, the present lg_k and the seed; beside it goes
 * a matrix of the configured k's words.
 * Refuses: 1 if lg is outside 4..26; 2 if the matrix has not k words.
 * Values: [2] the configured lg_k, [3] the present lg_k, which is the same, [4] the seed.
 * Writes: the matrix, all zeros, if accepted.
 */
uint32_t bridgenook_new_union(uint8_t lg, uint64_t seed, uint64_t *matrix, size_t matrix_length, uint64_t answer[8]);

/*
 * Merges a sketch into a union. The union is `lg` (configured), `present`, `seed` and the matrix; the source is its
 * lg_k `from`, its seed `other`, its coupons, its window (lent as in bridgenook_expand) and its pairs. A source that is
 * not Empty and has a smaller lg_k than the present one first folds the matrix to that; an Empty one changes nothing.
 * From a new union on, the matrix always holds exactly the pairs (row mod k, column) of all accepted sources that were
 * not Empty, k being the least of theirs and the configured one.
 * Refuses: 1 if from or lg is outside 4..26; 17 if the coupons exceed 64 * 2^from; 2 if the matrix has not the
 *     configured k's words, or the window not the bytes that its flavor asks for; 15 if the union is not lawful:
 *     present outside 4..lg, a row from 2^present on not zero, or the reserved number's bit set; 8, 11 or 10 by the
 *     first faulty pair, 14, 10 and 17 as bridgenook_expand, with the same places; 16 if the seeds differ.
 * Values: [2] the configured lg_k, [3] the present lg_k, which may be smaller than before, [4] the seed.
 * Writes: the matrix, if accepted and the source is not Empty.
 */
uint32_t bridgenook_merge(uint8_t lg, uint8_t present, uint64_t seed, uint64_t *matrix, size_t matrix_length,
                          uint8_t from, uint64_t other, uint32_t coupons, const uint8_t *window, size_t window_length,
                          const uint32_t *pairs, size_t pairs_length, uint64_t answer[8]);

#ifdef __cplusplus
}
#endif

#endif

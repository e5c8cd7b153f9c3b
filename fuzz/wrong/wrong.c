/*
 * Wrong calls in the place of right ones, to see that the fuzz program notices them. The linker puts each __wrap_ in
 * the place of the call, which is then __real_; the environment variable WRONG says which is wrong in this run.
 */
#include <stdlib.h>
#include <string.h>

#include "bridgenook.h"

static int is_wrong(const char *name)
{
    const char *wanted = getenv("WRONG");
    return wanted != NULL && strcmp(wanted, name) == 0;
}

static volatile uint8_t looked_at;

uint32_t __real_bridgenook_judge_pairs(uint8_t, const uint32_t *, size_t, uint64_t *);
uint32_t __wrap_bridgenook_judge_pairs(uint8_t lg, const uint32_t *pairs, size_t length, uint64_t *answer)
{
    if (is_wrong("looks-behind-a-part")) {
        looked_at = ((const uint8_t *)pairs)[4 * length];
    }
    if (is_wrong("looks-before-a-part")) {
        looked_at = ((const uint8_t *)pairs)[-1];
    }
    if (is_wrong("writes-what-is-const") && length > 0) {
        *(volatile uint32_t *)(uintptr_t)pairs = pairs[0];
    }
    return __real_bridgenook_judge_pairs(lg, pairs, length, answer);
}

uint32_t __real_bridgenook_fill_table(const uint16_t *, size_t, uint16_t *, size_t, uint64_t *);
uint32_t __wrap_bridgenook_fill_table(const uint16_t *book, size_t book_length, uint16_t *table, size_t table_length,
                                      uint64_t *answer)
{
    uint32_t number = __real_bridgenook_fill_table(book, book_length, table, table_length, answer);
    if (is_wrong("writes-before-it-refuses") && number != 0 && table_length > 0) {
        table[table_length / 2] ^= 1;
    }
    if (is_wrong("writes-behind-a-part")) {
        ((uint8_t *)table)[2 * table_length] = 0;
    }
    return number;
}

uint32_t __real_bridgenook_rows(uint8_t, uint64_t *);
uint32_t __wrap_bridgenook_rows(uint8_t lg, uint64_t *answer)
{
    uint64_t last = answer[7];
    uint32_t number = __real_bridgenook_rows(lg, answer);
    if (is_wrong("leaves-a-part-of-the-answer")) {
        answer[7] = last;
    }
    if (is_wrong("gives-an-unlisted-number") && number != 0) {
        number = 2;
    }
    if (is_wrong("gives-a-place-that-is-none") && number != 0) {
        answer[0] = 1;
    }
    return number;
}

uint32_t __real_bridgenook_determine_flavor(uint8_t, uint32_t, uint64_t *);
uint32_t __wrap_bridgenook_determine_flavor(uint8_t lg, uint32_t coupons, uint64_t *answer)
{
    static uint32_t calls;
    uint32_t number = __real_bridgenook_determine_flavor(lg, coupons, answer);
    if (is_wrong("keeps-something-between-calls") && number == 0) {
        answer[2] = calls++ % 5;
    }
    return number;
}

uint32_t __real_bridgenook_read_window(const uint16_t *, size_t, const uint16_t *, size_t, uint8_t, const uint8_t *,
                                       size_t, uint8_t *, size_t, uint64_t *);
uint32_t __wrap_bridgenook_read_window(const uint16_t *book, size_t book_length, const uint16_t *table,
                                       size_t table_length, uint8_t lg, const uint8_t *stream, size_t stream_length,
                                       uint8_t *window, size_t window_length, uint64_t *answer)
{
    uint32_t number = __real_bridgenook_read_window(book, book_length, table, table_length, lg, stream, stream_length,
                                                    window, window_length, answer);
    if (is_wrong("writes-past-the-fault") && number == BRIDGENOOK_STREAM_ENDS) {
        window[answer[0]] ^= 1;
    }
    return number;
}

uint32_t __real_bridgenook_table_build(uint8_t, const uint32_t *, size_t, uint32_t *, size_t, uint32_t *, size_t,
                                       uint64_t *);
uint32_t __wrap_bridgenook_table_build(uint8_t valid, const uint32_t *list, size_t list_length, uint32_t *region,
                                       size_t region_length, uint32_t *spare, size_t spare_length, uint64_t *answer)
{
    uint32_t number = __real_bridgenook_table_build(valid, list, list_length, region, region_length, spare,
                                                    spare_length, answer);
    if (is_wrong("keeps-an-item-of-a-duplicate") && number == BRIDGENOOK_NOT_ABOVE) {
        region[0] = list[0];
    }
    return number;
}

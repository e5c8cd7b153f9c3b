#include "sketch_file.h"

#include <stdio.h>
#include <stdlib.h>
#include <string.h>

static const char MARK[] = "nook v1";

enum { MARK_BYTES = 7 };

/* What a file claims. Nothing of it is believed before judge_head has passed it. */
struct head {
    uint8_t lg;
    uint64_t seed;
    uint32_t coupons;
    uint32_t pairs;
    uint32_t pair_bytes;
    uint32_t window_bytes;
    size_t window_length;
};

bool is_fine(struct verdict verdict)
{
    return verdict.trouble == NULL && verdict.number == BRIDGENOOK_ACCEPTED;
}

struct verdict troubled(const char *trouble)
{
    struct verdict verdict = {trouble, BRIDGENOOK_ACCEPTED, 0, 0};
    return verdict;
}

struct verdict answered(uint32_t number, const uint64_t answer[8])
{
    struct verdict verdict = {NULL, number, answer[0], answer[1]};
    return verdict;
}

void *reserve(size_t count, size_t size)
{
    void *memory = calloc(count == 0 ? 1 : count, size);
    if (memory == NULL) {
        fputs("out of memory\n", stderr);
        exit(1);
    }
    return memory;
}

void put_number(uint8_t *bytes, int count, uint64_t value)
{
    for (int i = 0; i < count; i++) {
        bytes[i] = (uint8_t)(value >> 8 * i);
    }
}

uint64_t get_number(const uint8_t *bytes, int count)
{
    uint64_t value = 0;
    for (int i = 0; i < count; i++) {
        value |= (uint64_t)bytes[i] << 8 * i;
    }
    return value;
}

/* The lengths are right and the practice books pass, so none of these calls is refused. */
void make_books(struct books *books)
{
    uint64_t answer[8];
    bridgenook_practice_pair_book(books->pair_book, BRIDGENOOK_PAIR_BOOK, answer);
    bridgenook_practice_pair_table(books->pair_table, BRIDGENOOK_DECODING_TABLE, answer);
    bridgenook_practice_window_book(books->window_book, BRIDGENOOK_WINDOW_BOOK, answer);
    bridgenook_fill_table(books->window_book, BRIDGENOOK_WINDOW_BOOK, books->window_table, BRIDGENOOK_DECODING_TABLE,
                          answer);
}

struct verdict save_file(const char *path, struct file_bytes file)
{
    FILE *out = fopen(path, "wb");
    if (out == NULL) {
        return troubled("the file cannot be made");
    }
    size_t written = fwrite(file.bytes, 1, file.length, out);
    if (fclose(out) != 0 || written != file.length) {
        return troubled("the file cannot be written");
    }
    return troubled(NULL);
}

/* The bytes that the file has, and not those that it claims: 2^30 for each stream at the most. */
static bool file_length(FILE *in, size_t *length)
{
    long end = fseek(in, 0, SEEK_END) == 0 ? ftell(in) : -1;
    if (end < 0 || end > 2147483647L || fseek(in, 0, SEEK_SET) != 0) {
        return false;
    }
    *length = (size_t)end;
    return true;
}

struct verdict load_file(const char *path, struct file_bytes *file)
{
    FILE *in = fopen(path, "rb");
    if (in == NULL) {
        return troubled("the file cannot be opened");
    }
    if (!file_length(in, &file->length)) {
        fclose(in);
        return troubled("the file has no length, or more than 2^31 - 1 bytes");
    }
    file->bytes = reserve(file->length, 1);
    size_t got = fread(file->bytes, 1, file->length, in);
    fclose(in);
    if (got != file->length) {
        free(file->bytes);
        return troubled("the file cannot be read");
    }
    return troubled(NULL);
}

static void put_head(uint8_t *bytes, const struct sketch *sketch, uint64_t pair_words, uint64_t window_words)
{
    memcpy(bytes, MARK, MARK_BYTES);
    bytes[7] = sketch->lg;
    put_number(bytes + 8, 8, sketch->seed);
    put_number(bytes + 16, 4, sketch->coupons);
    put_number(bytes + 20, 4, sketch->pairs_length);
    put_number(bytes + 24, 4, 4 * pair_words);
    put_number(bytes + 28, 4, 4 * window_words);
}

/* Room for both streams by the bounds that no stream passes: most_bits for pairs, 12k + 11 bits for a window. */
static struct verdict most_bytes(const struct sketch *sketch, size_t *bytes)
{
    uint64_t answer[8];
    uint32_t number = bridgenook_most_bits(sketch->lg, (uint32_t)sketch->pairs_length, answer);
    uint64_t words = answer[3];
    if (number == BRIDGENOOK_ACCEPTED) {
        bridgenook_words_for(12 * (uint64_t)sketch->window_length + 11, answer);
        *bytes = (size_t)(4 * (words + answer[2]));
    }
    return answered(number, answer);
}

struct verdict sketch_to_bytes(const struct books *books, const struct sketch *sketch, struct file_bytes *file)
{
    size_t room = 0;
    struct verdict verdict = most_bytes(sketch, &room);
    if (!is_fine(verdict)) {
        return verdict;
    }
    uint8_t *bytes = reserve(HEAD_BYTES + room, 1);
    uint8_t *streams = bytes + HEAD_BYTES;
    uint64_t pairs[8], window[8] = {0};
    verdict = answered(bridgenook_write_pairs(books->pair_book, BRIDGENOOK_PAIR_BOOK, sketch->lg, sketch->pairs,
                                              sketch->pairs_length, streams, room, pairs),
                       pairs);
    if (is_fine(verdict) && sketch->window_length != 0) {
        size_t used = 4 * (size_t)pairs[3];
        verdict = answered(bridgenook_write_window(books->window_book, BRIDGENOOK_WINDOW_BOOK, sketch->lg,
                                                   sketch->window, sketch->window_length, streams + used, room - used,
                                                   window),
                           window);
    }
    if (!is_fine(verdict)) {
        free(bytes);
        return verdict;
    }
    put_head(bytes, sketch, pairs[3], window[3]);
    file->bytes = bytes;
    file->length = HEAD_BYTES + 4 * (size_t)(pairs[3] + window[3]);
    return verdict;
}

static void get_head(const uint8_t *bytes, struct head *head)
{
    head->lg = bytes[7];
    head->seed = get_number(bytes + 8, 8);
    head->coupons = (uint32_t)get_number(bytes + 16, 4);
    head->pairs = (uint32_t)get_number(bytes + 20, 4);
    head->pair_bytes = (uint32_t)get_number(bytes + 24, 4);
    head->window_bytes = (uint32_t)get_number(bytes + 28, 4);
}

/* Every claim is held to the bytes that are there: a pair takes two bits at least, a byte of a window one. */
static struct verdict judge_claims(struct head *head, size_t length)
{
    uint64_t rows[8], flavor[8];
    uint32_t number = bridgenook_rows(head->lg, rows);
    if (number != BRIDGENOOK_ACCEPTED) {
        return answered(number, rows);
    }
    bridgenook_determine_flavor(head->lg, head->coupons, flavor);
    head->window_length = flavor[2] < BRIDGENOOK_FLAVOR_HYBRID ? 0 : (size_t)rows[2];
    if ((uint64_t)HEAD_BYTES + head->pair_bytes + head->window_bytes != length) {
        return troubled("the streams are not as long as the file says");
    }
    if (head->pairs > 4 * (uint64_t)head->pair_bytes) {
        return troubled("more pairs than its bytes can hold");
    }
    if (head->window_length > 8 * (uint64_t)head->window_bytes) {
        return troubled("a longer window than its bytes can hold");
    }
    if (head->window_length == 0 && head->window_bytes != 0) {
        return troubled("a window where there should be none");
    }
    return troubled(NULL);
}

static struct verdict judge_head(struct file_bytes file, struct head *head)
{
    if (file.length < HEAD_BYTES || memcmp(file.bytes, MARK, MARK_BYTES) != 0) {
        return troubled("not a file of a sketch");
    }
    get_head(file.bytes, head);
    return judge_claims(head, file.length);
}

static struct verdict read_streams(const struct books *books, const struct head *head, const uint8_t *streams,
                                   struct sketch *sketch)
{
    uint64_t answer[8];
    uint32_t number =
        bridgenook_read_pairs(books->pair_book, BRIDGENOOK_PAIR_BOOK, books->pair_table, BRIDGENOOK_DECODING_TABLE,
                              head->lg, head->pairs, streams, head->pair_bytes, sketch->pairs, head->pairs, answer);
    if (number == BRIDGENOOK_ACCEPTED && head->window_length != 0) {
        number = bridgenook_read_window(books->window_book, BRIDGENOOK_WINDOW_BOOK, books->window_table,
                                        BRIDGENOOK_DECODING_TABLE, head->lg, streams + head->pair_bytes,
                                        head->window_bytes, sketch->window, head->window_length, answer);
    }
    return answered(number, answer);
}

struct verdict sketch_from_bytes(const struct books *books, struct file_bytes file, struct sketch *sketch)
{
    struct head head;
    struct verdict verdict = judge_head(file, &head);
    if (!is_fine(verdict)) {
        return verdict;
    }
    sketch->lg = head.lg;
    sketch->seed = head.seed;
    sketch->coupons = head.coupons;
    sketch->pairs_length = head.pairs;
    sketch->pairs = reserve(head.pairs, sizeof *sketch->pairs);
    sketch->window_length = head.window_length;
    sketch->window = reserve(head.window_length, 1);
    verdict = read_streams(books, &head, file.bytes + HEAD_BYTES, sketch);
    if (!is_fine(verdict)) {
        free_sketch(sketch);
    }
    return verdict;
}

void free_sketch(struct sketch *sketch)
{
    free(sketch->pairs);
    free(sketch->window);
}

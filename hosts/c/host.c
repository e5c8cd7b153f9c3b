/*
 * A host of Bridgenook in C. Four viewers count ticket numbers, each in a sketch of its own size, and put their
 * sketches into files. The wall's controller trusts no file: it reads them back, merges them, and tries damaged copies.
 *
 *     host FOLDER      the files are made in FOLDER
 *
 * Everything that it prints is fixed: expected.txt.
 */
#include <inttypes.h>
#include <stdio.h>
#include <stdlib.h>

#include "damages.h"
#include "sketch_file.h"

static const uint64_t SEED = 9001;
static const char *const FLAVORS[] = {"Empty", "Sparse", "Hybrid", "Pinned", "Sliding"};

enum { VIEWERS = 4, DAMAGED_VIEWER = 3, WALL_LG = 12, PATH_BYTES = 4096 };

/* A viewer counts so many ticket numbers from the first on. */
struct viewer {
    uint8_t lg;
    uint64_t first;
    uint64_t tickets;
};

static const struct viewer viewers[VIEWERS] = {
    {11, 0, 150},
    {10, 100, 400},
    {9, 300, 1200},
    {8, 1000, 20000},
};

/* A union: its record and its matrix. */
struct wall {
    uint8_t lg;
    uint8_t present;
    uint64_t seed;
    uint64_t *matrix;
    size_t rows;
};

static void stop(const char *what, struct verdict verdict)
{
    if (verdict.trouble != NULL) {
        fprintf(stderr, "%s: %s\n", what, verdict.trouble);
    } else {
        fprintf(stderr, "%s: refused by %" PRIu32 "\n", what, verdict.number);
    }
    exit(1);
}

static void need(const char *what, struct verdict verdict)
{
    if (!is_fine(verdict)) {
        stop(what, verdict);
    }
}

/* SplitMix64's step: a plain hash, the same in every host. */
static uint64_t hash_of(uint64_t seed, uint64_t ticket)
{
    uint64_t hash = seed + ticket + UINT64_C(0x9e3779b97f4a7c15);
    hash = (hash ^ hash >> 30) * UINT64_C(0xbf58476d1ce4e5b9);
    hash = (hash ^ hash >> 27) * UINT64_C(0x94d049bb133111eb);
    return hash ^ hash >> 31;
}

/* Each column is half as likely as the one before. */
static int leading_zeros(uint64_t hash)
{
    int zeros = 0;
    while (zeros < 63 && (hash >> (63 - zeros) & 1) == 0) {
        zeros++;
    }
    return zeros;
}

/* A ticket is a pair: the row by the hash's low bits, the column by its leading zeros. */
static uint64_t *count_tickets(struct viewer viewer, uint64_t rows)
{
    uint64_t *matrix = reserve((size_t)rows, sizeof *matrix);
    for (uint64_t i = 0; i < viewer.tickets; i++) {
        uint64_t hash = hash_of(SEED, viewer.first + i);
        matrix[hash % rows] |= UINT64_C(1) << leading_zeros(hash);
    }
    return matrix;
}

static uint64_t rows_of(uint8_t lg)
{
    uint64_t answer[8];
    need("rows", answered(bridgenook_rows(lg, answer), answer));
    return answer[2];
}

/* Splits a matrix. A list of 64k pairs always fits. Answers the flavor. */
static uint64_t split_matrix(const uint64_t *matrix, size_t rows, struct sketch *sketch)
{
    uint64_t answer[8];
    sketch->window = reserve(rows, 1);
    sketch->pairs = reserve(64 * rows, sizeof *sketch->pairs);
    uint32_t number =
        bridgenook_split(sketch->lg, matrix, rows, sketch->window, rows, sketch->pairs, 64 * rows, answer);
    need("split", answered(number, answer));
    sketch->coupons = (uint32_t)answer[2];
    sketch->window_length = answer[3] < BRIDGENOOK_FLAVOR_HYBRID ? 0 : rows;
    sketch->pairs_length = (size_t)answer[6];
    return answer[3];
}

static void path_of(char *path, const char *folder, const char *name, int number)
{
    int length = snprintf(path, PATH_BYTES, "%s/%s-%d.sketch", folder, name, number);
    if (length < 0 || length >= PATH_BYTES) {
        stop(folder, troubled("the folder's name is too long"));
    }
}

static void save_viewer(const struct books *books, const char *folder, int number, struct viewer viewer)
{
    char path[PATH_BYTES];
    size_t rows = (size_t)rows_of(viewer.lg);
    struct sketch sketch = {.lg = viewer.lg, .seed = SEED};
    struct file_bytes file;
    uint64_t *matrix = count_tickets(viewer, rows);
    uint64_t flavor = split_matrix(matrix, rows, &sketch);
    path_of(path, folder, "viewer", number);
    need(path, sketch_to_bytes(books, &sketch, &file));
    need(path, save_file(path, file));
    printf("viewer %d: lg_k %d, %s, coupons %" PRIu32 ", pairs %zu, bytes %zu\n", number, viewer.lg, FLAVORS[flavor],
           sketch.coupons, sketch.pairs_length, file.length);
    free(file.bytes);
    free(matrix);
    free_sketch(&sketch);
}

static struct wall new_wall(uint8_t lg)
{
    uint64_t answer[8];
    struct wall wall = {lg, lg, SEED, NULL, (size_t)rows_of(lg)};
    wall.matrix = reserve(wall.rows, sizeof *wall.matrix);
    need("new union", answered(bridgenook_new_union(lg, SEED, wall.matrix, wall.rows, answer), answer));
    return wall;
}

static struct verdict merge_sketch(struct wall *wall, const struct sketch *sketch)
{
    uint64_t answer[8];
    uint32_t number = bridgenook_merge(wall->lg, wall->present, wall->seed, wall->matrix, wall->rows, sketch->lg,
                                       sketch->seed, sketch->coupons, sketch->window, sketch->window_length,
                                       sketch->pairs, sketch->pairs_length, answer);
    if (number == BRIDGENOOK_ACCEPTED) {
        wall->present = (uint8_t)answer[3];
    }
    return answered(number, answer);
}

/* From a file to the union, believing nothing. */
static struct verdict merge_file(const struct books *books, const char *path, struct wall *wall)
{
    struct file_bytes file;
    struct sketch sketch;
    struct verdict verdict = load_file(path, &file);
    if (!is_fine(verdict)) {
        return verdict;
    }
    verdict = sketch_from_bytes(books, file, &sketch);
    free(file.bytes);
    if (is_fine(verdict)) {
        verdict = merge_sketch(wall, &sketch);
        free_sketch(&sketch);
    }
    return verdict;
}

/* The union's rows are those of its present lg_k; the rest of the matrix is zero. */
static void print_wall(const char *when, int number, const struct wall *wall)
{
    uint64_t coupons[8], flavor[8];
    uint32_t refused = bridgenook_count(wall->lg, wall->matrix, wall->rows, coupons);
    need("count", answered(refused, coupons));
    refused = bridgenook_determine_flavor(wall->present, (uint32_t)coupons[2], flavor);
    need("flavor", answered(refused, flavor));
    printf("%s %d: lg_k %d, %s, coupons %" PRIu64 "\n", when, number, wall->present, FLAVORS[flavor[2]], coupons[2]);
}

static void print_verdict(const char *name, struct verdict verdict)
{
    if (is_fine(verdict)) {
        printf("%s: accepted\n", name);
    } else if (verdict.trouble != NULL) {
        printf("%s: the host refuses, %s\n", name, verdict.trouble);
    } else {
        printf("%s: refused by %" PRIu32 ", place %" PRIu64 ", bit %" PRIu64 "\n", name, verdict.number, verdict.place,
               verdict.bit);
    }
}

static void try_damages(const struct books *books, const char *folder, struct wall *wall)
{
    char from[PATH_BYTES], to[PATH_BYTES];
    path_of(from, folder, "viewer", DAMAGED_VIEWER);
    for (int i = 0; i < DAMAGES; i++) {
        struct file_bytes file;
        need(from, load_file(from, &file));
        damages[i].apply(&file);
        path_of(to, folder, "damaged", i + 1);
        need(to, save_file(to, file));
        free(file.bytes);
        print_verdict(damages[i].name, merge_file(books, to, wall));
    }
}

int main(int count, char **arguments)
{
    static struct books books;
    char path[PATH_BYTES];
    if (count != 2) {
        fputs("usage: host FOLDER\n", stderr);
        return 2;
    }
    make_books(&books);
    for (int i = 0; i < VIEWERS; i++) {
        save_viewer(&books, arguments[1], i + 1, viewers[i]);
    }
    struct wall wall = new_wall(WALL_LG);
    for (int i = 0; i < VIEWERS; i++) {
        path_of(path, arguments[1], "viewer", i + 1);
        need(path, merge_file(&books, path, &wall));
        print_wall("union after viewer", i + 1, &wall);
    }
    try_damages(&books, arguments[1], &wall);
    print_wall("union of viewers 1 to", VIEWERS, &wall);
    free(wall.matrix);
    return 0;
}

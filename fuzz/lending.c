#define _DEFAULT_SOURCE
#include "lending.h"

#include <stdio.h>
#include <stdlib.h>
#include <string.h>
#include <sys/mman.h>
#include <unistd.h>

#include "random.h"

/* As many parts as a call is lent at the most, and its answer. */
enum { MOST_PARTS = 6 };

enum kind { CONST, WRITABLE, SPARSE };

struct part {
    enum kind kind;
    uint8_t *at;
    size_t bytes;
    size_t may_change;
    /* Of a sparse part, its whole mapping. */
    uint8_t *mapping;
    size_t mapped;
};

/* Room for a part between two guard pages, and for what it held before the call. */
struct arena {
    uint8_t *room;
    uint8_t *before;
};

static enum placement placement;
static struct arena arenas[MOST_PARTS];
static struct part parts[MOST_PARTS];
static int lent;

static void stop(const char *what)
{
    perror(what);
    exit(2);
}

static uint8_t *map(size_t bytes, int more)
{
    void *mapping = mmap(NULL, bytes, PROT_READ | PROT_WRITE, MAP_PRIVATE | MAP_ANONYMOUS | more, -1, 0);
    if (mapping == MAP_FAILED) {
        stop("mmap");
    }
    return mapping;
}

static void set_access(uint8_t *at, size_t bytes, int access)
{
    if (mprotect(at, bytes, access) != 0) {
        stop("mprotect");
    }
}

static size_t page(void)
{
    static size_t bytes;
    if (bytes == 0) {
        bytes = (size_t)sysconf(_SC_PAGESIZE);
    }
    return bytes;
}

static void make_arena(struct arena *arena)
{
    uint8_t *mapping = map(MOST_BYTES + 2 * page(), 0);
    set_access(mapping, page(), PROT_NONE);
    set_access(mapping + page() + MOST_BYTES, page(), PROT_NONE);
    arena->room = mapping + page();
    arena->before = map(MOST_BYTES, 0);
}

static uint8_t *placed(int index, size_t bytes)
{
    if (placement == ON_HEAP) {
        uint8_t *block = malloc(bytes);
        if (block == NULL) {
            stop("malloc");
        }
        return block;
    }
    return placement == ENDS_AT_GUARD ? arenas[index].room + MOST_BYTES - bytes : arenas[index].room;
}

static struct part *new_part(enum kind kind, size_t bytes)
{
    if (lent == MOST_PARTS || (kind != SPARSE && bytes > MOST_BYTES)) {
        fputs("fuzz: a part that cannot be lent\n", stderr);
        exit(2);
    }
    struct part *part = &parts[lent++];
    *part = (struct part){.kind = kind, .bytes = bytes};
    return part;
}

void start_lending(enum placement where)
{
    placement = where;
    lent = 0;
    for (int i = 0; i < MOST_PARTS && arenas[i].room == NULL; i++) {
        make_arena(&arenas[i]);
    }
}

static uint8_t *lend_part(enum kind kind, const void *content, size_t bytes)
{
    int index = lent;
    struct part *part = new_part(kind, bytes);
    part->at = placed(index, bytes);
    if (content == NULL) {
        fill_random(part->at, bytes);
    } else {
        memcpy(part->at, content, bytes);
    }
    memcpy(arenas[index].before, part->at, bytes);
    return part->at;
}

const void *lend(const void *content, size_t count, size_t size)
{
    return lend_part(CONST, content, count * size);
}

void *lend_writable(const void *content, size_t count, size_t size)
{
    return lend_part(WRITABLE, content, count * size);
}

void *lend_sparse(size_t count, size_t size)
{
    struct part *part = new_part(SPARSE, count * size);
    size_t inside = (part->bytes + page() - 1) / page() * page();
    part->mapped = inside + page();
    part->mapping = map(part->mapped, MAP_NORESERVE);
    set_access(part->mapping + inside, page(), PROT_NONE);
    part->at = part->mapping + inside - part->bytes;
    return part->at;
}

/* The pages of a part, in its arena. */
static void set_part_access(const struct part *part, int access)
{
    uintptr_t from = (uintptr_t)part->at / page() * page();
    uintptr_t to = ((uintptr_t)part->at + part->bytes + page() - 1) / page() * page();
    if (part->bytes != 0) {
        set_access(part->at - ((uintptr_t)part->at - from), to - from, access);
    }
}

static void set_all(int access)
{
    for (int i = 0; i < lent; i++) {
        bool is_on_pages = parts[i].kind == SPARSE || (parts[i].kind == CONST && placement != ON_HEAP);
        if (is_on_pages) {
            set_part_access(&parts[i], access);
        }
    }
}

void protect_lent(void)
{
    set_all(PROT_READ);
}

void may_change(const void *at, size_t bytes)
{
    for (int i = 0; i < lent; i++) {
        if (parts[i].kind == WRITABLE && parts[i].at == at) {
            parts[i].may_change = bytes < parts[i].bytes ? bytes : parts[i].bytes;
        }
    }
}

static void add_to_digest(uint64_t *digest, const uint8_t *bytes, size_t count)
{
    for (size_t i = 0; i < count; i++) {
        *digest = (*digest ^ bytes[i]) * UINT64_C(1099511628211);
    }
}

static bool take_part_back(int index, uint64_t *digest)
{
    const struct part *part = &parts[index];
    if (part->kind == SPARSE) {
        munmap(part->mapping, part->mapped);
        return true;
    }
    size_t may = part->may_change;
    bool is_kept = memcmp(part->at + may, arenas[index].before + may, part->bytes - may) == 0;
    add_to_digest(digest, part->at, may);
    if (placement == ON_HEAP) {
        free(part->at);
    }
    return is_kept;
}

bool take_back(uint64_t *digest)
{
    bool is_kept = true;
    set_all(PROT_READ | PROT_WRITE);
    for (int i = 0; i < lent; i++) {
        is_kept = take_part_back(i, digest) && is_kept;
    }
    lent = 0;
    return is_kept;
}

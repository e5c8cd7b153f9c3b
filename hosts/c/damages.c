#include "damages.h"

#include <string.h>

static void cut_pairs(struct file_bytes *file)
{
    size_t pair_bytes = (size_t)get_number(file->bytes + 24, 4);
    uint8_t *end = file->bytes + HEAD_BYTES + pair_bytes;
    memmove(end - 4, end, file->length - HEAD_BYTES - pair_bytes);
    put_number(file->bytes + 24, 4, pair_bytes - 4);
    file->length -= 4;
}

static void cut_window(struct file_bytes *file)
{
    put_number(file->bytes + 28, 4, get_number(file->bytes + 28, 4) - 4);
    file->length -= 4;
}

static void cut_file(struct file_bytes *file)
{
    file->length -= 1;
}

static void blank_pairs(struct file_bytes *file)
{
    memset(file->bytes + HEAD_BYTES, 0, 4);
}

static void flip_window_bit(struct file_bytes *file)
{
    file->bytes[HEAD_BYTES + get_number(file->bytes + 24, 4)] ^= 1;
}

static void halve_rows(struct file_bytes *file)
{
    file->bytes[7] -= 1;
}

static void raise_lg(struct file_bytes *file)
{
    file->bytes[7] = 27;
}

static void change_seed(struct file_bytes *file)
{
    file->bytes[8] ^= 1;
}

static void add_coupon(struct file_bytes *file)
{
    put_number(file->bytes + 16, 4, get_number(file->bytes + 16, 4) + 1);
}

static void claim_pairs(struct file_bytes *file)
{
    put_number(file->bytes + 20, 4, 4 * get_number(file->bytes + 24, 4) + 1);
}

const struct damage damages[DAMAGES] = {
    {"the last word of the pairs cut", cut_pairs},
    {"the last word of the window cut", cut_window},
    {"the last byte of the file cut", cut_file},
    {"the first word of the pairs zeroed", blank_pairs},
    {"the first bit of the window flipped", flip_window_bit},
    {"half the rows", halve_rows},
    {"an lg_k of 27", raise_lg},
    {"another seed", change_seed},
    {"one coupon more", add_coupon},
    {"one pair more than the bytes can hold", claim_pairs},
};

#include "bits.h"

#include <string.h>

#include "random.h"

static size_t bits_put;

void start_bits(struct stream *stream)
{
    memset(stream->bytes, 0, MOST_STREAM);
    bits_put = 0;
}

void put_bits(struct stream *stream, uint64_t value, unsigned count)
{
    for (unsigned i = 0; i < count && bits_put < 8 * (size_t)MOST_STREAM; i++, bits_put++) {
        stream->bytes[bits_put / 8] |= (uint8_t)((value >> i & 1) << bits_put % 8);
    }
}

/* The room is all zeros from the start. */
void put_zeros(struct stream *stream, uint64_t count)
{
    size_t left = 8 * sizeof stream->bytes - bits_put;
    bits_put += count < left ? (size_t)count : left;
}

void end_bits(struct stream *stream)
{
    unsigned more = (unsigned)any_below(3) * 12;
    put_bits(stream, one_in(2) ? 0 : any_number(), more);
    stream->length = (bits_put + 31) / 32 * 4;
}

void damage_stream(struct stream *stream)
{
    switch (any_below(6)) {
    case 0:
    case 1:
        for (uint64_t flips = any_between(1, 3); flips > 0 && stream->length > 0; flips--) {
            stream->bytes[any_below(stream->length)] ^= (uint8_t)(1u << any_below(8));
        }
        break;
    case 2: /* cut anywhere, often inside the last word */
        stream->length -= any_below((one_in(2) || stream->length < 8 ? stream->length : 8) + 1);
        break;
    case 3: /* bytes behind the end, which decide nothing */
        for (uint64_t more = any_below(9); more > 0 && stream->length < MOST_STREAM; more--) {
            stream->bytes[stream->length++] = (uint8_t)any_number();
        }
        break;
    case 4:
        stream->length = any_below(200);
        fill_random(stream->bytes, stream->length);
        break;
    default:
        stream->length = any_below(3000);
        memset(stream->bytes, 0, stream->length);
    }
}

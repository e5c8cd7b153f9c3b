/* Streams put together bit by bit, so that they can hold what no writer writes. */
#ifndef BITS_H
#define BITS_H

#include <stddef.h>
#include <stdint.h>

enum { MOST_STREAM = 1 << 16 };

struct stream {
    uint8_t bytes[MOST_STREAM];
    size_t length;
};

/* An empty stream, to which the following are added. */
void start_bits(struct stream *stream);
/* The low bits of a value, so many of them, up to 64. What does not fit the room is dropped. */
void put_bits(struct stream *stream, uint64_t value, unsigned count);
void put_zeros(struct stream *stream, uint64_t count);
/* Zeros, or any bits, up to a whole word and some words more. */
void end_bits(struct stream *stream);

/* Bits flipped, bytes cut or added, or all zeros or garbage. */
void damage_stream(struct stream *stream);

#endif

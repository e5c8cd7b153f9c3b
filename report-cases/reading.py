#!/usr/bin/env python3
"""Document 01's small program, read again without the library, and the stored cases that come of it.

  python3 report-cases/reading.py make          writes every NAME.in and NAME.out beside this file, and the cuts
  python3 report-cases/reading.py read < TEXT   answers one text

The check runs the stored files (report-cases/run) and needs no Python.
"""
import os
import re
import sys


class Refused(Exception):
    pass


def take(text, name):
    """The number of a line `name=NUMBER` at the front, and the text after it."""
    line = re.match(re.escape(name) + rb"=(0|[1-9][0-9]*)\n", text)
    if not line or int(line[1]) >= 2**32:
        raise Refused(15)
    return int(line[1]), text[line.end():]


def asked(text):
    lg, text = take(text, b"lg_k")
    if not 4 <= lg <= 12:
        raise Refused(1)
    n, text = take(text, b"pairs")
    if n > 4096:
        raise Refused(5)
    pairs = []
    for i in range(n):
        pair, text = take(text, b"p%d" % i)
        pairs.append(pair)
    if text:
        raise Refused(15)
    return lg, pairs


def code(symbol):
    """The practice book's bits of a pair symbol, the first bit first."""
    if symbol < 4:
        return "0" * symbol + "1"
    if symbol < 7:
        return "0000" + low_first(symbol - 4, 5)
    v, c = divmod(symbol - 7, 2)
    return "0000" + low_first(v + 3, 5) + str(c)


def low_first(n, count):
    return "".join(str(n >> i & 1) for i in range(count))


def judged(k, pairs):
    before = -1
    for pair in pairs:
        if pair // 64 >= k:
            raise Refused(8)
        if pair <= before:
            raise Refused(11)
        if pair == 2**32 - 1:
            raise Refused(10)
        before = pair


def base_bits(k, n):
    return 0 if n == 0 or n > k else (k // n).bit_length() - 1


def stream(k, pairs):
    """The bits with pad, as text."""
    b, bits, row, column = base_bits(k, len(pairs)), "", 0, 0
    for pair in pairs:
        step, at = pair // 64 - row, pair % 64
        bits += code(at - (column if step == 0 else 0)) + "0" * (step >> b) + "1" + low_first(step, b)
        row, column = pair // 64, at + 1
    return bits + "0" * max(10 - b, 0) if pairs else ""


def flavor(k, c):
    if c == 0:
        return "empty"
    if 32 * c < 3 * k:
        return "sparse"
    if 2 * c < k:
        return "hybrid"
    return "pinned" if 8 * c < 27 * k else "sliding"


def report(text):
    lg, pairs = asked(text)
    k, n = 2**lg, len(pairs)
    judged(k, pairs)
    bits = stream(k, pairs)
    if n > 64 * k:
        raise Refused(17)
    words = [int((bits[i:i + 32])[::-1], 2) for i in range(0, len(bits), 32)]
    lines = [("lg_k", lg), ("pairs", n), ("flavor", flavor(k, n)), ("offset", max(8 * n - 19 * k, 0) // (8 * k)), ("base_bits", base_bits(k, n)),
             ("bits", len(bits)), ("words", len(words))]
    lines += [("w%d" % i, word) for i, word in enumerate(words)]
    return "".join("%s=%s\n" % line for line in lines)


def answer(text):
    try:
        return report(text)
    except Refused as why:
        return "refused=%d\n" % why.args[0]


def text_of(lg, pairs):
    return ("lg_k=%d\npairs=%d\n" % (lg, len(pairs)) + "".join("p%d=%d\n" % pair for pair in enumerate(pairs))).encode()


def cases():
    example = text_of(4, [5, 70, 71])
    yield "example", example
    yield "empty", b""
    yield "lg-3", b"lg_k=3\n"
    yield "lg-12", text_of(12, [0, 1, 64, 262143])
    yield "lg-13", b"lg_k=13\n"
    yield "lg-13-cut", b"lg_k=13"
    yield "lg-13-then-anything", b"lg_k=13\nanything"
    yield "lg-26", text_of(26, [5])
    yield "lg-300", b"lg_k=300\npairs=0\n"
    yield "lg-leading-zero", b"lg_k=04\npairs=0\n"
    yield "lg-zero", b"lg_k=0\npairs=0\n"
    yield "lg-no-digit", b"lg_k=\npairs=0\n"
    yield "lg-space", b"lg_k= 4\npairs=0\n"
    yield "lg-capitals", b"LG_K=4\npairs=0\n"
    yield "lg-carriage-return", b"lg_k=4\r\npairs=0\r\n"
    yield "lg-too-large", b"lg_k=4294967300\npairs=0\n"
    yield "lg-hundred-digits", b"lg_k=" + b"4" * 100 + b"\npairs=0\n"
    yield "pairs-0", b"lg_k=4\npairs=0\n"
    yield "pairs-0-then-more", b"lg_k=4\npairs=0\n\n"
    yield "pairs-4097", b"lg_k=4\npairs=4097\n"
    yield "pairs-4097-cut", b"lg_k=4\npairs=4097"
    yield "pairs-largest", b"lg_k=4\npairs=4294967295\n"
    yield "pairs-too-large", b"lg_k=4\npairs=4294967296\n"
    yield "pairs-leading-zero", b"lg_k=4\npairs=03\np0=5\np1=70\np2=71\n"
    yield "pairs-missing", b"lg_k=4\np0=5\n"
    yield "pair-too-large", b"lg_k=4\npairs=1\np0=4294967296\n"
    yield "pair-reserved", b"lg_k=12\npairs=1\np0=4294967295\n"
    yield "pair-leading-zero", b"lg_k=4\npairs=1\np0=05\n"
    yield "pair-zero", b"lg_k=4\npairs=1\np0=0\n"
    yield "index-wrong", b"lg_k=4\npairs=2\np0=5\np2=70\n"
    yield "index-leading-zero", b"lg_k=4\npairs=1\np00=5\n"
    yield "index-missing", b"lg_k=4\npairs=1\np=5\n"
    yield "name-wrong", b"lg_k=4\npairs=1\nq0=5\n"
    yield "newline-missing", example[:-1]
    yield "text-after", example + b"p3=72\n"
    yield "newline-after", example + b"\n"
    yield "row-not-below", text_of(4, [5, 1024])
    yield "pair-twice", text_of(4, [5, 70, 70])
    yield "pair-falls", text_of(4, [70, 5])
    yield "form-before-writer", b"lg_k=4\npairs=2\np0=1024\np1=x\n"
    yield "sparse", text_of(12, [77])
    yield "pinned", text_of(4, list(range(0, 53 * 19, 19)))
    yield "every-pair", text_of(4, list(range(1024)))
    yield "one-too-many", text_of(4, list(range(1025)))
    yield "one-too-many-twice", text_of(4, list(range(1024)) + [1023])
    yield "longest", text_of(12, [64 * row + 63 for row in range(4096)])
    yield "longest-text", text_of(12, [2**32 - 1] * 4096)
    yield "last-rows", text_of(12, list(range(262144 - 4096, 262144)))


def make():
    here = os.path.dirname(os.path.abspath(__file__))
    for name, text in cases():
        with open(os.path.join(here, name + ".in"), "wb") as f:
            f.write(text)
        with open(os.path.join(here, name + ".out"), "w") as f:
            f.write(answer(text))
    # what each front of a text is answered, from no byte up to all: one line each, as all but the whole are refused
    for name in ["example", "lg-13-then-anything", "pairs-4097", "pair-falls"]:
        with open(os.path.join(here, name + ".in"), "rb") as f:
            text = f.read()
        with open(os.path.join(here, name + ".cuts"), "w") as f:
            f.write("".join(answer(text[:length]).split("\n")[0] + "\n" for length in range(len(text) + 1)))


if sys.argv[1:] == ["make"]:
    make()
elif sys.argv[1:] == ["read"]:
    sys.stdout.write(answer(sys.stdin.buffer.read()))
else:
    sys.exit(__doc__)

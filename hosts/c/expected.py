"""The coupons and listed pairs that the host programs must print, worked out from sets of pairs without the library."""

SEED, WALL_LG = 9001, 12
VIEWERS = [(11, 0, 150), (10, 100, 400), (9, 300, 1200), (8, 1000, 20000)]  # lg_k, first ticket, tickets


def pair_of(ticket, lg):
    word = 2**64 - 1
    x = SEED + ticket + 0x9E3779B97F4A7C15 & word
    x = (x ^ x >> 30) * 0xBF58476D1CE4E5B9 & word
    x = (x ^ x >> 27) * 0x94D049BB133111EB & word
    x ^= x >> 31
    return x % 2**lg, min(64 - x.bit_length(), 63)


def flavor(k, c):
    if c == 0:
        return "Empty"
    return "Sparse" if 32 * c < 3 * k else "Hybrid" if 2 * c < k else "Pinned" if 8 * c < 27 * k else "Sliding"


def listed(k, pairs):
    c = len(pairs)
    if flavor(k, c) in ("Empty", "Sparse"):
        return c
    o = 0 if 8 * c < 19 * k else (8 * c - 19 * k) // (8 * k)
    early = o * k - sum(column < o for _, column in pairs)
    return early + sum(column >= o + 8 for _, column in pairs)


least, union = WALL_LG, set()
lines = []
for number, (lg, first, tickets) in enumerate(VIEWERS, 1):
    pairs = {pair_of(ticket, lg) for ticket in range(first, first + tickets)}
    print(f"viewer {number}: lg_k {lg}, {flavor(2**lg, len(pairs))}, coupons {len(pairs)}, pairs {listed(2**lg, pairs)}")
    least = min(least, lg)
    union = {(row % 2**least, column) for row, column in union | pairs}
    lines.append(f"union after viewer {number}: lg_k {least}, {flavor(2**least, len(union))}, coupons {len(union)}")
print(*lines, sep="\n")

# Finds the power table and the default-scale table by their rules, in whole numbers only.
#
#   python3 reference/make_tables.py          prints tables.h
#   python3 reference/make_tables.py check    status 0 exactly if the stored tables.h is what it prints
#
# Power table: P[f] = m * 2^-24 with 2^23 <= m <= 2^24 and (2m-1)^256 < 2^(6400-f) < (2m+1)^256.
# Default scale for head size D: m * 2^-x with 2^23 <= m < 2^24 and (2m-1)^2 * D < 2^(2x+2) < (2m+1)^2 * D.

import os
import sys


def float_bits(m, x):
    """The bits of the f32 that is m * 2^-x, for 2^23 <= m <= 2^24 and a result in the normal range."""
    assert 2**23 <= m <= 2**24
    if m == 2**24:
        m, x = 2**23, x - 1
    exponent = 23 - x
    return (exponent + 127) << 23 | (m - 2**23)


def largest(low, high, holds):
    """The largest number from low to high for which the falling condition holds; it holds for low."""
    while low < high:
        middle = (low + high + 1) // 2
        if holds(middle):
            low = middle
        else:
            high = middle - 1
    return low


def power_entry(f):
    target = 2 ** (6400 - f)
    m = largest(2**23, 2**24, lambda c: (2 * c - 1) ** 256 < target)
    assert (2 * m - 1) ** 256 < target < (2 * m + 1) ** 256
    return float_bits(m, 24)


def default_scale(size):
    found = []
    for x in range(20, 32):
        target = 2 ** (2 * x + 2)
        m = largest(2**23, 2**24 - 1, lambda c: (2 * c - 1) ** 2 * size < target)
        if (2 * m - 1) ** 2 * size < target < (2 * m + 1) ** 2 * size:
            found.append(float_bits(m, x))
    assert len(found) == 1
    return found[0]


def lines(entries):
    for start in range(0, len(entries), 8):
        yield "    " + " ".join("0x%08X," % bits for bits in entries[start : start + 8])


def table():
    out = [
        "/* The two tables as f32 bits, printed by make_tables.py from their rules. */",
        "",
        "static const uint32_t power_bits[256] = { /* P[0] to P[255] */",
        *lines([power_entry(f) for f in range(256)]),
        "};",
        "",
        "static const uint32_t default_scale_bits[256] = { /* for D = 1 to 256 */",
        *lines([default_scale(size) for size in range(1, 257)]),
        "};",
    ]
    return "\n".join(out) + "\n"


if __name__ == "__main__":
    if sys.argv[1:] == ["check"]:
        stored = os.path.join(os.path.dirname(os.path.abspath(__file__)), "tables.h")
        with open(stored) as file:
            sys.exit(0 if file.read() == table() else "reference/tables.h is not what the rules give")
    sys.stdout.write(table())

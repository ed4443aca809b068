"""Exact reference for the house exponential E(d), which approximates e^-d in f32.

    python3 tools/exponential_vectors.py lines   both tables, and E at the edges, over two walks of its range and over a row
    python3 tools/exponential_vectors.py error   the largest relative error of E against e^-d that walks of its range meet

The differential tests hold the library and the C reference to the lines, which are

    power F BITS            entry F of the power table
    scale D BITS            the default scale of head size D
    exp BITS BITS           d and E(d), or - where it has no value
    row BITS BITS BITS      the largest score of a row, a score of it, and what the row form writes in its place

A value is a pair (mantissa, exponent) of whole numbers that stands for
mantissa * 2^exponent. No value the kernel meets is below zero, so the mantissa
carries no sign. Sums and products of pairs are exact; only `rounded` loses anything.
"""

import sys
from decimal import Decimal, getcontext
from math import isqrt

MANTISSA_BITS = 24
LOWEST_EXPONENT = -149

INFINITY = 0x7F800000
MINUS_ZERO = 0x80000000

EDGES = """
00000000 80000000 00000001 80000001 007fffff 00800000 80800000 33800000 3b000000
3eb17217 3eb17218 3eb17219 3f317217 3f317218 3f317219 3f800000 bf800000 40000000
41200000 42a60000 42a65af4 42a65af5 42a65af6 42a65af7 42a65af8 42a65af9 42c80000
43000000 7f7fffff 7f800000 ff7fffff ff800000 7fc00000 7f800001 ffc00000 7fffffff
ffffffff 3a47e181
"""


# f32 arithmetic on exact pairs

def rounded(mantissa, exponent):
    """The nearest f32, ties to even, with subnormals.

    The exponent has no upper bound: only d * LOG2E can pass the largest f32, and
    there both that product and the infinity in its place are above 120.
    """
    assert mantissa >= 0
    drop = max(mantissa.bit_length() - MANTISSA_BITS, LOWEST_EXPONENT - exponent)
    if drop <= 0:
        return mantissa, exponent
    kept = mantissa >> drop
    rest = mantissa - (kept << drop)
    half = 1 << (drop - 1)
    if rest > half or (rest == half and kept & 1):
        kept += 1
    return kept, exponent + drop


def is_f32(mantissa, exponent):
    """Whether rounding leaves the value as it is."""
    nearest, raised = rounded(mantissa, exponent)
    return nearest << (raised - exponent) == mantissa


def exact_product(a, b):
    return a[0] * b[0], a[1] + b[1]


def exact_difference(a, b):
    exponent = min(a[1], b[1])
    return (a[0] << (a[1] - exponent)) - (b[0] << (b[1] - exponent)), exponent


def product(a, b):
    return rounded(*exact_product(a, b))


def difference(a, b):
    return rounded(*exact_difference(a, b))


def floor(mantissa, exponent):
    return mantissa << exponent if exponent >= 0 else mantissa >> -exponent


def from_bits(bits):
    """The value of a finite f32 with sign bit 0."""
    assert 0 <= bits < INFINITY
    field, fraction = bits >> 23, bits & 0x7FFFFF
    if field == 0:
        return fraction, LOWEST_EXPONENT
    return fraction | 0x800000, field - 1 + LOWEST_EXPONENT


def to_bits(mantissa, exponent):
    """The bit pattern of a value that is a finite f32."""
    assert is_f32(mantissa, exponent)
    if mantissa == 0:
        return 0
    # Shift to 24 mantissa bits, or to fewer at the lowest exponent.
    shift = max(mantissa.bit_length() - MANTISSA_BITS, LOWEST_EXPONENT - exponent)
    mantissa = mantissa >> shift if shift >= 0 else mantissa << -shift
    exponent += shift
    # The leading bit of a normal mantissa adds 1 to the exponent field.
    bits = ((exponent - LOWEST_EXPONENT) << 23) + mantissa
    assert bits < INFINITY
    return bits


# Tables

def power(f):
    """2^(-f/256) to the nearest multiple of 2^-24."""
    target = 1 << (6400 - f)
    low, high = 1 << 23, 1 << 24
    while low < high:  # the largest m with (2m-1)^256 < target
        middle = (low + high + 1) // 2
        if (2 * middle - 1) ** 256 < target:
            low = middle
        else:
            high = middle - 1
    assert (2 * low - 1) ** 256 < target < (2 * low + 1) ** 256
    return low, -24


def scale(dimension):
    """The f32 nearest to 1 / sqrt(dimension)."""
    found = []
    for x in range(64):
        target = 1 << (2 * x + 2)
        near = isqrt(target // dimension) // 2
        for m in range(near - 1, near + 3):
            if (1 << 23 <= m < 1 << 24
                    and (2 * m - 1) ** 2 * dimension < target < (2 * m + 1) ** 2 * dimension):
                found.append((m, -x))
    assert len(found) == 1
    return found[0]


LOG2E = from_bits(0x3FB8AA3B)
C1 = from_bits(0x3F317218)
C2 = from_bits(0x3E75FDF0)
ONE = (1, 0)
POWERS = [power(f) for f in range(256)]
SCALES = [scale(dimension) for dimension in range(1, 257)]


# Kernel

def base_two(bits):
    """y = d * LOG2E for a finite d, with -0 taken as 0."""
    return product(from_bits(bits & ~MINUS_ZERO), LOG2E)


def steps(y):
    """n = floor(256 * y)"""
    return floor(y[0], y[1] + 8)


def exponential(bits):
    """The bit pattern of E(d) for the d with these bits, None where it has no value."""
    if bits > INFINITY and bits != MINUS_ZERO:  # NaN or below 0
        return None
    if bits == INFINITY:
        return 0
    y = base_two(bits)
    if floor(*y) >= 120:
        return 0
    n = steps(y)
    k, f = divmod(n, 256)
    r = exact_difference(y, (n, -8))
    assert is_f32(*r)
    p = difference(ONE, product(r, difference(C1, product(r, C2))))
    scaled = exact_product(product(POWERS[f], p), (1, -k))
    assert is_f32(*scaled)
    return to_bits(*scaled)


def row_code(bits, largest):
    """The bits that the row form writes for the element with these bits: E(largest - s), and +0 where that has no value."""
    exact = exact_difference(from_bits(largest), from_bits(bits))
    if exact[0] < 0:
        return 0
    return exponential(to_bits(*rounded(*exact)))


def check():
    assert to_bits(*ONE) == 0x3F800000
    assert exponential(0x00000000) == exponential(MINUS_ZERO) == 0x3F800000
    assert to_bits(*base_two(0x3EB17218)) == 0x3F000000
    assert exponential(0x3EB17218) == 0x3F3504F3
    assert to_bits(*base_two(0x3F317218)) == 0x3F800000
    assert exponential(0x3F317218) == 0x3F000000
    assert floor(*base_two(0x42A65AF6)) < 120 and exponential(0x42A65AF6) != 0
    assert floor(*base_two(0x42A65AF7)) >= 120 and exponential(0x42A65AF7) == 0
    assert steps(base_two(to_bits(83, 0))) == 30654
    for dimension, exponent in (4, -1), (16, -2), (64, -3), (256, -4):
        assert to_bits(*SCALES[dimension - 1]) == to_bits(1, exponent)
    assert to_bits(*SCALES[2 - 1]) == 0x3F3504F3


# Commands

def walk_all():
    return [i * 65536 + i * 40503 % 65536 for i in range(65536)]


def walk_range(offset=0):
    walk = [i * 17061 + offset for i in range(65536)]
    assert walk[-1] < 0x42A65AF8
    return walk


def walk_last():
    """Every 37th d of the last part of the range, from 64 on."""
    return list(range(0x42800000, 0x42A65AF7, 37))


def lines():
    for f, value in enumerate(POWERS):
        print(f"power {f} {to_bits(*value):08x}")
    for dimension, value in enumerate(SCALES, 1):
        print(f"scale {dimension} {to_bits(*value):08x}")
    for bits in [int(word, 16) for word in EDGES.split()] + walk_all() + walk_range():
        code = exponential(bits)
        print(f"exp {bits:08x} {'-' if code is None else f'{code:08x}'}")
    largest = 0x41A0003F
    for bits in range(0x4000003F, 0x4200003F, 0x00080000):
        print(f"row {largest:08x} {bits:08x} {row_code(bits, largest):08x}")


def error():
    getcontext().prec = 40

    def decimal(bits):
        mantissa, exponent = from_bits(bits)
        return mantissa * Decimal(2) ** exponent

    largest, place = Decimal(0), 0
    for bits in walk_range() + walk_range(8530) + walk_last():
        if floor(*base_two(bits)) >= 120:
            continue
        relative = abs(decimal(exponential(bits)) / (-decimal(bits)).exp() - 1)
        if relative > largest:
            largest, place = relative, bits
    print(f"largest relative error {largest:.6e} at d bits {place:08x}")
    print(f"in units of 2^-24: {largest * 2**24:.4f}")


if __name__ == "__main__":
    commands = {"lines": lines, "error": error}
    if len(sys.argv) != 2 or sys.argv[1] not in commands:
        sys.exit(__doc__)
    check()
    commands[sys.argv[1]]()

#!/usr/bin/env python3
"""tools/root-check/table.py: prints the rows of crates/float_root_table/src/lib.rt. Row i is for the roots, from 2^23 to 2^24, of the digits in part i:
64 parts for an even exponent, then 64 for an odd one, of which the digits count twice. On a part the root is nearly
c0 + c1 * u + c2 * u * (1 - u) for u from 0 to 1; c2 is rounded first, then the others are fitted to what is left."""
import math
import sys

PARTS = 64


def root(odd, part, u):
    return 2.0**23 * math.sqrt((1 + odd) * (1 + (part + u) / PARTS))


def nodes(count):
    return [(1 - math.cos(math.pi * (2 * j + 1) / (2 * count))) / 2 for j in range(count)]


def row(odd, part):
    def f(u):
        return root(odd, part, u)

    x = nodes(3)
    y = [f(u) for u in x]
    first = (y[1] - y[0]) / (x[1] - x[0])
    second = ((y[2] - y[1]) / (x[2] - x[1]) - first) / (x[2] - x[0])
    k2 = round(-second * 16)
    c2 = k2 / 16
    x = nodes(2)
    y = [f(u) - c2 * u * (1 - u) for u in x]
    k1 = round((y[1] - y[0]) / (x[1] - x[0]) * 32)
    c1 = k1 / 32
    left = [f(t / 1000) - c2 * (t / 1000) * (1 - t / 1000) - c1 * (t / 1000) for t in range(1001)]
    # a half, so that cutting rounds, and a bit for what the two shifts before it cut
    k0 = round(((max(left) + min(left)) / 2 + 0.5) * 32 + 0.75)
    assert 2**28 <= k0 < 2**29 and k1 < 2**22 and k2 < 2**13
    return k0 << 35 | k1 << 13 | k2


if sys.argv[1:]:
    sys.exit(print(__doc__) if sys.argv[1:] == ["-h"] else 2)
for i in range(2 * PARTS):
    digits = "%016x" % row(*divmod(i, PARTS))
    print("        %d => 0x%s," % (i, "_".join(digits[k : k + 4] for k in range(0, 16, 4))))

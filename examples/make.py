#!/usr/bin/env python3
"""Writes the sample job files: p, D, N, r, the byte offsets of roots and rows, the roots, the rows; r is 0 where the roots are to be found. Fields are 16-bit
words, the low byte first, or 32-bit words after a first 16-bit word of 0 where the modulus needs more than two bytes."""
import os
import struct

HERE = os.path.dirname(os.path.abspath(__file__))


def times(p, n, f, g):
    """The product of two polynomials in Y whose coefficients are lists of n words."""
    h = [[0] * n for _ in range(len(f) + len(g) - 1)]
    for i, a in enumerate(f):
        for j, b in enumerate(g):
            for s, x in enumerate(a):
                for t in range(n - s):
                    h[i + j][s + t] = (h[i + j][s + t] + x * b[t]) % p
    return h


def monic(p, n, root, power, seed):
    """A factor of this root and power, with other words than 0 past X = 0."""
    f = [[1] + [0] * (n - 1)]
    for _ in range(power):
        f = times(p, n, f, [[-root % p] + [0] * (n - 1), [1] + [0] * (n - 1)])
    for j in range(power):
        for t in range(1, n):
            f[j][t] = (seed * (j + 2) + t * t + j * t) % p
    return f


def write(name, p, n, roots, rows):
    first, size, code = (2, 4, "I") if p > 65535 else (0, 2, "H")
    head = first + 6 * size
    words = [p, len(rows) - 1, n, len(roots), head, head + size * len(roots)] + roots + [w for row in rows for w in row]
    with open(os.path.join(HERE, name), "wb") as f:
        f.write(bytes(first) + struct.pack("<%d%s" % (len(words), code), *words))


def product(p, n, factors):
    f = [[1] + [0] * (n - 1)]
    for seed, (root, power) in enumerate(factors):
        f = times(p, n, f, monic(p, n, root, power, seed + 1))
    return f


def job(name, p, n, factors):
    write(name, p, n, [root for root, _ in factors], product(p, n, factors))


def find(name, p, n, factors):
    """The same without its roots."""
    write(name, p, n, [], product(p, n, factors))


def longest(p):
    """The longest file, and the longest listing: twelve factors Y + s to 64 terms, every number of eight digits but that of each s at X = 0, which has seven."""
    roots = [10000000 + 500000 * i for i in range(12)]
    f = [[1] + [0] * 63]
    for i, c in enumerate(roots):
        s = [p - c] + [10000000 + 104729 * (i + 1) * t % 6000000 for t in range(1, 64)]
        f = times(p, 64, f, [s, [1] + [0] * 63])
    write("longest.job", p, 64, roots, f)


write("square_root.job", 7, 3, [1, 6], [[6, 6, 0], [0, 0, 0], [1, 0, 0]])
job("high_power.job", 101, 8, [(5, 7), (90, 1)])
job("small_prime.job", 5, 10, [(0, 4), (1, 3), (3, 2)])
job("two.job", 2, 16, [(0, 3), (1, 2)])
job("two_simple.job", 2, 16, [(0, 1), (1, 1)])
job("two_at_once.job", 3, 64, [(0, 1), (1, 1), (2, 7)])
job("wide.job", 65537, 6, [(3, 1), (65536, 2)])
longest(16777213)
write("unsplit.job", 7, 3, [1], [[6, 6, 0], [0, 0, 0], [1, 0, 0]])
write("find.job", 7, 3, [], [[6, 6, 0], [0, 0, 0], [1, 0, 0]])
find("find_powers.job", 5, 10, [(0, 4), (1, 3), (3, 2)])
find("find_wide.job", 16777213, 4, [(0, 1), (4095, 3), (8388607, 2), (16777212, 1)])
write("find_unsplit.job", 7, 3, [], [[1, 6, 0], [0, 0, 0], [1, 0, 0]])

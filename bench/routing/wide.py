#!/usr/bin/env python3
"""Works out, in fractions, the basis that evidence of wide numbers names: wide.py <bench/routing/wide.txt

The network is a chain of 60 stages of two links each, and two demands cross the first 20 of them, two the next 20 and two the last.
The basis has a line for each place: `link E` or `demand K` for their slacks, and `path K SIDES` for a path of demand K, which takes the
second link of each of its stages whose bit is set.
"""
import math
import sys
from fractions import Fraction

STAGES = 60
CROSSED = 20
NEEDS = [303, 202, 303, 202, 303, 202]
LINKS = 2 * STAGES


def bounds():
    """The capacities of the links, of which two make a stage, and the needs."""
    shares = [2**i % 101 for i in range(STAGES)]
    return [number for r in shares for number in (202 + r, 303 - r)] + NEEDS


def columns(lines):
    """The columns of the basis, each as its rows with an entry of 1, and as the demand that it is of."""
    for line in lines:
        kind, number, *sides = line.split()
        number = int(number)
        if kind == "link":
            yield {number}, None
        elif kind == "demand":
            yield {LINKS + number}, number
        else:
            first, taken = number // 2 * CROSSED, int(sides[0], 16)
            yield {2 * (first + i) + (taken >> i & 1) for i in range(CROSSED)} | {LINKS + number}, number


def inverse(matrix):
    """The inverse of a matrix of whole numbers."""
    n = len(matrix)
    rows = [[Fraction(a) for a in row] + [Fraction(i == j) for j in range(n)] for i, row in enumerate(matrix)]
    for k in range(n):
        pivot = next(i for i in range(k, n) if rows[i][k])
        rows[k], rows[pivot] = rows[pivot], rows[k]
        rows[k] = [a / rows[k][k] for a in rows[k]]
        for i in range(n):
            if i != k and rows[i][k]:
                factor = rows[i][k]
                rows[i] = [a - factor * b if b else a for a, b in zip(rows[i], rows[k])]
    return [row[n:] for row in rows]


def main():
    basis = list(columns(sys.stdin))
    numbers = bounds()
    assert len(basis) == len(numbers)
    rows = inverse([[int(row in entries) for entries, _ in basis] for row in range(len(numbers))])
    common = math.lcm(*(a.denominator for row in rows for a in row))
    print(f"least common denominator {common}, {'at least' if common >= 2**62 else 'below'} 2^62 = {2**62}")
    values = [sum(a * b for a, b in zip(row, numbers)) for row in rows]
    least = min(values)
    print(f"values from {float(least):.6f} to {float(max(values)):.6f}, {'none' if least >= 0 else 'one'} below 0")
    for demand in range(len(NEEDS)):
        print(f"place {LINKS + demand}, of the slack of demand {demand}: a column of demand {basis[LINKS + demand][1]}")


main()

#!/usr/bin/env python3
"""Writes a network file as SNDlib has them for measured traffic: 12 nodes, 15 links, and 132 demands with six decimals, one for
each ordered pair of nodes. The same seed gives the same file.

Usage: matrix.py network    the file
       matrix.py bound      the least cost of fractional modules without failures: each demand takes a path that is cheapest at each
                            link's least cost for a unit of capacity; and that cost rounded up to a multiple of the costs' divisor
"""
import math
import random
import sys
from fractions import Fraction

SEED = 132
NODES = ["Bern", "Bonn", "Brest", "Gent", "Graz", "Jena", "Kiel", "Lyon", "Nice", "Pisa", "Turin", "Ulm"]
LINKS = [
    ("Bern", "Lyon"), ("Bern", "Ulm"), ("Bern", "Turin"), ("Bonn", "Gent"), ("Bonn", "Jena"), ("Bonn", "Ulm"), ("Brest", "Gent"),
    ("Brest", "Lyon"), ("Gent", "Kiel"), ("Graz", "Jena"), ("Graz", "Pisa"), ("Jena", "Kiel"), ("Lyon", "Nice"), ("Nice", "Pisa"),
    ("Pisa", "Turin"),
]
SMALL, LARGE = 155_000_000, 622_000_000


def words(millionths, digits=6):
    return f"{millionths // 10**6}.{millionths % 10**6:06d}"[: digits - 6 or None]


def drawn():
    draws = random.Random(SEED)
    costs = [25_000_000 * draws.randrange(4, 41) for _ in LINKS]
    weights = {node: draws.uniform(0.2, 3.0) for node in NODES}
    needs = [
        (a, b, int(4_000_000 * weights[a] * weights[b] * draws.expovariate(1.0)) + 1)
        for a in NODES for b in NODES if a != b
    ]
    return costs, needs


def network():
    costs, needs = drawn()
    lines = ["?SNDlib native format; type: network; version: 1.0", "# measured traffic", "NODES ("]
    lines += [f"  {node}" for node in NODES]
    lines += [")", "LINKS ("]
    for (a, b), cost in zip(LINKS, costs):
        modules = f"{words(SMALL, 2)} {words(cost, 2)} {words(LARGE, 2)} {words(cost * 5 // 2, 2)}"
        lines += [f"  {a}_{b} ( {a} {b} ) 0.00 0.00 0.00 0.00 ( {modules} )"]
    lines += [")", "DEMANDS ("]
    lines += [f"  {a}_{b} ( {a} {b} ) 1 {words(need)} UNLIMITED" for a, b, need in needs]
    return "\n".join(lines + [")", ""])


def distances(prices):
    far = {(a, b): Fraction(0 if a == b else 10**18) for a in NODES for b in NODES}
    for (a, b), price in zip(LINKS, prices):
        far[a, b] = far[b, a] = price
    for k in NODES:
        for a in NODES:
            for b in NODES:
                far[a, b] = min(far[a, b], far[a, k] + far[k, b])
    return far


def bound():
    costs, needs = drawn()
    far = distances([min(Fraction(c, SMALL), Fraction(c * 5 // 2, LARGE)) for c in costs])
    raw = sum(far[a, b] * need for a, b, need in needs)
    divisor = math.gcd(*costs, *(c * 5 // 2 for c in costs))
    rounded = -(-raw // divisor) * divisor
    return f"raw {raw.numerator} {raw.denominator} bound {words(rounded)}\n"


sys.stdout.write({"network": network, "bound": bound}[sys.argv[1]]())

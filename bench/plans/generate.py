#!/usr/bin/env python3
"""Writes a network file as large as the limits allow: a ring of all nodes, further links and demands between random
nodes, and 16 modules for each link. The same arguments always give the same file.

The modules of a link have 1, 2, .. times one capacity, which is given in thousandths.

Usage: generate.py [NODES LINKS MODULES DEMANDS CAPACITY]      128 256 16 2048 10000 without arguments
"""
import sys


def draws(seed):
    """Numbers of a linear congruence modulo 2^64."""
    while True:
        seed = (seed * 6364136223846793005 + 1442695040888963407) % 2**64
        yield seed >> 33


def main():
    nodes, links, modules, demands, capacity = map(int, sys.argv[1:] or ["128", "256", "16", "2048", "10000"])
    numbers = draws(1)
    draw = lambda below: next(numbers) % below

    def ends():
        first = draw(nodes)
        return first, (first + 1 + draw(nodes - 1)) % nodes

    print("?SNDlib native format; type: network; version: 1.0")
    print("NODES (")
    for n in range(nodes):
        print(f"  n{n}")
    print(")\nLINKS (")
    for e in range(links):
        a, b = (e, (e + 1) % nodes) if e < nodes else ends()
        kinds = " ".join(f"{capacity * (k + 1) / 1000:.2f} {5 * (k + 1) + draw(10)}.00" for k in range(modules))
        print(f"  l{e} ( n{a} n{b} ) 0 0 0 0 ( {kinds} )")
    print(")\nDEMANDS (")
    for k in range(demands):
        a, b = ends()
        print(f"  d{k} ( n{a} n{b} ) 1 {1 + draw(40)}.00 UNLIMITED")
    print(")")


if __name__ == "__main__":
    main()

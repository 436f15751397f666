#!/usr/bin/env python3
"""Writes a made-up network whose modules are of many kinds, the larger ones far cheaper per unit, as an SNDlib network file.

Usage: kinds.py SEED NODES LINKS KINDS

Nodes lie on a square; links are a ring through all of them and then the shortest further ones. Each link offers all kinds. Kind k has
the capacity 1, 2.5, 4, 10, 16, 40 .. units; it costs its capacity to the power 0.6, times the length of the link and an opening part.
Nodes differ in size, and a demand grows with the sizes of its ends.
"""

import math
import sys


SERIES = [10, 16, 25, 40, 63, 100, 160, 250, 400, 630, 1000]


def draws(seed):
    """The function that draws a number below m."""
    x = seed

    def draw(m):
        nonlocal x
        x = (x * 6364136223846793005 + 1442695040888963407) % 2**64
        return x // 2**33 % m

    return draw


def ring(places):
    """The nodes around the middle."""
    x, y = (sum(p[k] for p in places) / len(places) for k in (0, 1))
    return sorted(range(len(places)), key=lambda i: math.atan2(places[i][1] - y, places[i][0] - x))


def network(seed, nodes, links, kinds):
    """Ends of the links with the modules of each, and the demands."""
    draw = draws(seed)
    places = [(draw(1000), draw(1000)) for _ in range(nodes)]
    sizes = [1 + draw(9) for _ in range(nodes)]

    def length(e):
        return math.dist(places[e[0]], places[e[1]])

    order = ring(places)
    ends = [tuple(sorted((order[i], order[i - 1]))) for i in range(nodes)]
    pairs = [(i, j) for i in range(nodes) for j in range(i + 1, nodes)]
    further = sorted((e for e in pairs if e not in ends), key=length)
    ends = sorted(ends + further[: links - nodes])
    capacities = [SERIES[k * (3 if kinds < 5 else 1)] for k in range(kinds)]

    def cost(e, capacity):
        return round((100 + length(e)) * (capacity / 10) ** 0.6 / 10)

    modules = [[(c, cost(e, c)) for c in capacities] for e in ends]
    demands = [(i, j, 1 + sizes[i] * sizes[j] * (50 + draw(100)) // 100) for i, j in pairs]
    return list(zip(ends, modules)), demands


def file(nodes, links, demands):
    """The network file, as words with a space after each but a closing parenthesis."""
    words = ["NODES", "(", *(f"n{i}" for i in range(nodes)), ")", "LINKS", "("]
    for e, ((a, b), modules) in enumerate(links):
        words += [f"l{e}", "(", f"n{a}", f"n{b}", ")", *["0.000"] * 4, "("]
        for capacity, cost in modules:
            words += [f"{capacity}.000", f"{cost}.000"]
        words += [")"]
    words += [")", "DEMANDS", "("]
    for k, (a, b, need) in enumerate(demands):
        words += [f"d{k}", "(", f"n{a}", f"n{b}", ")", "1", f"{need}.000", "UNLIMITED"]
    text = "".join(word + ("\n" if word == ")" else " ") for word in [*words, ")"])
    return "?SNDlib native format; type: network; version: 1.0\n" + text


def main():
    seed, nodes, links, kinds = map(int, sys.argv[1:])
    print(file(nodes, *network(seed, nodes, links, kinds)), end="")


if __name__ == "__main__":
    main()

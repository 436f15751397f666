"""Writes a network file of a planar network.

Usage: planar.py [SEED [NODES LINKS DEMANDS]]      by default 1 50 88 662

Nodes are random points of a square. Links join near nodes first and never cross, until no more fit; then the longest that can go
without leaving a node or a link on which the rest hangs are taken away, down to the number asked for. So every single link's failure
is survivable. Each link has modules of 155.000 and 622.000, which cost its length and two to four times its length. The demands are
those between the nodes of the greatest product of weights over distance, in hundredths.
"""
import random
import sys
from math import dist


def crosses(p, q, r, s):
    """Whether two links without a common end cross."""
    def side(a, b, c):
        return (b[0] - a[0]) * (c[1] - a[1]) - (b[1] - a[1]) * (c[0] - a[0])
    return side(p, q, r) * side(p, q, s) < 0 and side(r, s, p) * side(r, s, q) < 0


def triangulated(at):
    pairs = sorted(((i, j) for i in range(len(at)) for j in range(i)), key=lambda p: dist(at[p[0]], at[p[1]]))
    links = []
    for i, j in pairs:
        if not any({i, j}.isdisjoint(l) and crosses(at[i], at[j], at[l[0]], at[l[1]]) for l in links):
            links.append((i, j))
    return links


def reaches_all(nodes, links):
    seen, left = {0}, [0]
    while left:
        a = left.pop()
        for i, j in links:
            if a in (i, j) and i + j - a not in seen:
                seen.add(i + j - a)
                left.append(i + j - a)
    return len(seen) == nodes


def survives(nodes, links):
    """Whether all nodes stay joined when any single link fails."""
    return all(reaches_all(nodes, links[:e] + links[e + 1:]) for e in range(len(links)))


def thinned(at, links, count):
    for l in sorted(links, key=lambda l: -dist(at[l[0]], at[l[1]])):
        rest = [m for m in links if m != l]
        if len(links) > count and survives(len(at), rest):
            links = rest
    return sorted(links)


def main(seed=1, nodes=50, links=88, demands=662):
    rng = random.Random(seed)
    at = [(rng.randrange(1000), rng.randrange(1000)) for _ in range(nodes)]
    weight = [rng.randrange(10, 100) for _ in range(nodes)]
    print("?SNDlib native format; type: network; version: 1.0")
    print("NODES ( " + " ".join(f"n{i}" for i in range(nodes)) + " )")
    print("LINKS (")
    for k, (i, j) in enumerate(thinned(at, triangulated(at), links)):
        length = max(1, round(dist(at[i], at[j])))
        large = length * rng.randrange(20, 41) // 10
        print(f"l{k} ( n{i} n{j} ) 0 0 0 0 ( 155.00 {length} 622.00 {large} )")
    print(")\nDEMANDS (")
    pull = {(i, j): weight[i] * weight[j] / (dist(at[i], at[j]) + 1) for i in range(nodes) for j in range(i)}
    for k, (i, j) in enumerate(sorted(sorted(pull, key=lambda p: -pull[p])[:demands])):
        print(f"d{k} ( n{i} n{j} ) 1 {pull[i, j] / 2:.2f} UNLIMITED")
    print(")")


main(*map(int, sys.argv[1:]))

"""Writes a network file of the size of one of SNDlib's undirected instances; the sizes are all that it has of them.

Usage: sizes.py NAME [SEED]      the names with their nodes, links and demands are below

Nodes are random points of a square. Links join near nodes first and never cross, until no more fit; where that makes too few, the shortest
of the others come to them; where it makes too many, the longest go that can go without leaving a link on which others hang. So every single
link's failure is survivable. Modules of 155.00 and 622.00 cost a link's length and two to four times its length. Demands join the pairs of
nodes whose weights have the greatest product over their distance; where there are more demands than pairs, the rest are the first pairs
again, the other way round.
"""
import random
import sys
from itertools import combinations
from math import dist

SIZES = {
    "polska": (12, 18, 66), "nobel-us": (14, 21, 91), "atlanta": (15, 22, 210), "newyork": (16, 49, 240), "nobel-germany": (17, 26, 121),
    "france": (25, 45, 300), "janos-us": (26, 42, 650), "norway": (27, 51, 702), "nobel-eu": (28, 41, 378), "cost266": (37, 57, 1332),
    "pioro40": (40, 89, 780), "germany50": (50, 88, 662), "zib54": (54, 81, 1501), "ta2": (65, 108, 1869),
}


def side(a, b, c):
    return (b[0] - a[0]) * (c[1] - a[1]) - (b[1] - a[1]) * (c[0] - a[0])


def crosses(at, one, two):
    """Whether two links without a common end cross."""
    if set(one) & set(two):
        return False
    p, q, r, s = (at[k] for k in (*one, *two))
    return side(p, q, r) * side(p, q, s) < 0 and side(r, s, p) * side(r, s, q) < 0


def is_joined(nodes, links):
    near = {k: [] for k in range(nodes)}
    for i, j in links:
        near[i].append(j)
        near[j].append(i)
    seen, left = {0}, [0]
    while left:
        for k in near[left.pop()]:
            if k not in seen:
                seen.add(k)
                left.append(k)
    return len(seen) == nodes


def survives(nodes, links):
    """Whether all nodes stay joined whichever single link fails."""
    return all(is_joined(nodes, links[:e] + links[e + 1:]) for e in range(len(links)))


def links_of(at, count):
    length = lambda pair: dist(at[pair[0]], at[pair[1]])
    pairs = sorted(combinations(range(len(at)), 2), key=length)
    links, others = [], []
    for pair in pairs:
        (others if any(crosses(at, pair, link) for link in links) else links).append(pair)
    links += others[:max(0, count - len(links))]
    for link in sorted(links, key=length, reverse=True):
        rest = [other for other in links if other != link]
        if len(links) > count and survives(len(at), rest):
            links = rest
    assert len(links) == count and survives(len(at), links)
    return sorted(links)


def main(name, seed="1"):
    nodes, count, demands = SIZES[name]
    rng = random.Random(f"{name} {seed}")
    at = [(rng.randrange(1000), rng.randrange(1000)) for _ in range(nodes)]
    weight = [rng.randrange(10, 100) for _ in range(nodes)]
    print("?SNDlib native format; type: network; version: 1.0")
    print("NODES ( " + " ".join(f"n{k} ( {x} {y} )" for k, (x, y) in enumerate(at)) + " )\nLINKS (")
    for e, (i, j) in enumerate(links_of(at, count)):
        cost = max(1, round(dist(at[i], at[j])))
        print(f"l{e} ( n{i} n{j} ) 0 0 0 0 ( 155.00 {cost} 622.00 {cost * rng.randrange(20, 41) // 10} )")
    print(")\nDEMANDS (")
    pull = {(i, j): weight[i] * weight[j] / (dist(at[i], at[j]) + 1) for i, j in combinations(range(nodes), 2)}
    ranked = sorted(pull, key=pull.get, reverse=True)
    again = ranked[:max(0, demands - len(ranked))]
    for k, (i, j) in enumerate(sorted(ranked[:demands]) + sorted((j, i) for i, j in again)):
        need = pull[i, j] / 2 if i < j else pull[j, i] * rng.uniform(0.25, 0.75)
        print(f"d{k} ( n{i} n{j} ) 1 {need:.2f} UNLIMITED")
    print(")")


main(*sys.argv[1:])

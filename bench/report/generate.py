#!/usr/bin/env python3
"""Writes a network, its failures and a report of one plan that has no fault, to the files network, failures and report.

The network is a ring of 128 nodes with two links between neighbours, so that all distances are known without a search.

Usage: generate.py FOLDER pool [LINES]   a pool of 4,096 lines, or so many, of 256 lengths, and a plan without failures
       generate.py FOLDER states         a plan for 257 states and 2,048 demands, each on one path of 5 links, of 21 MB
       generate.py FOLDER large          the same on paths of 35 links, of 100 MB
       generate.py FOLDER short          2,048 demands in 32 parts of one link each, in 140 states, of 110 MB
       generate.py FOLDER journal        65,536 edits, and 64 outcomes that say at the last one that a state separates a demand
"""
import itertools
import os
import random
import sys

NODES = 128
DIGITS = "abcdefghijklmnopqrstuvwxyzABCDEFGHIJKLMNOPQRSTUVWXYZ0123456789"
SHORT = ["".join(w) for w in itertools.product(DIGITS, repeat=2)]


class Kind:
    def __init__(self, states, demands, hops, parts, lines, short=False):
        self.states, self.hops, self.parts, self.lines = states, hops, parts, lines
        self.edits = 0
        self.links = SHORT[: 2 * NODES] if short else [f"L{e:03d}" for e in range(2 * NODES)]
        self.names = SHORT[:demands] if short else [f"D{k:04d}" for k in range(demands)]
        self.nodes = [f"N{v:03d}" for v in range(NODES)]
        # In thousandths. Each part of a demand has as much, over the denominator 1.
        self.part = 1 if short else 1000
        self.need = self.part * parts
        load = demands * hops * self.need // NODES
        self.capacity = 1000
        self.count = -(-load // self.capacity)

    def demand(self, k):
        return k % NODES, (k + self.hops) % NODES


def money(thousandths):
    return f"{thousandths // 1000}.{thousandths % 1000:03d}"


def network(kind):
    yield "?SNDlib native format; type: network; version: 1.0\nNODES (\n"
    yield "".join(f"{v}\n" for v in kind.nodes)
    yield ")\nLINKS (\n"
    for e, name in enumerate(kind.links):
        v = e % NODES
        yield f"{name} ( {kind.nodes[v]} {kind.nodes[(v + 1) % NODES]} ) 0 0 0 0 ( {money(kind.capacity)} 1.00 )\n"
    yield ")\nDEMANDS (\n"
    for k, name in enumerate(kind.names):
        a, b = kind.demand(k)
        yield f"{name} ( {kind.nodes[a]} {kind.nodes[b]} ) 1 {money(kind.need)} UNLIMITED\n"
    yield ")\n"


def failures(kind):
    yield "?planner failures; version: 1\nFAILURES (\n"
    if kind.edits:
        # All links of the first node.
        yield f"S001 ( {' '.join(kind.links[e] for e in (0, NODES - 1, NODES, 2 * NODES - 1))} )\n"
    else:
        yield "".join(f"S{s:03d} ( {kind.links[s - 1]} )\n" for s in range(1, kind.states))
    yield ")\n"


def routes(kind):
    yield "( "
    for s in range(kind.states):
        # A state fails one link of a pair; all paths take the other one there.
        way = [e if s - 1 != e else e + NODES for e in range(NODES)]
        yield f"state {s} {'none' if s == 0 else f'S{s:03d}'} 1 ( "
        for k, name in enumerate(kind.names):
            a, _ = kind.demand(k)
            path = " ".join(kind.links[way[(a + i) % NODES]] for i in range(kind.hops))
            yield f"{name} {kind.part} ( {path} )\n" * kind.parts
        yield ")\n"
    yield ")\n"


def pool(kind):
    """Lines of lengths, each with the least lengths around the ring of all demands."""
    draw = random.Random(1)
    for i in range(kind.lines):
        lengths = [draw.randrange(1, 1000) for _ in range(2 * NODES - 1)] + [1]
        least = [min(lengths[v], lengths[v + NODES]) for v in range(NODES)]
        before = [0, *itertools.accumulate(least + least)]
        right = 0
        for k in range(len(kind.names)):
            a = kind.demand(k)[0]
            one_way = before[a + kind.hops] - before[a]
            right += kind.need * min(one_way, before[NODES] - one_way)
        yield f"( {i} state 0 right {right} ( {' '.join(map(str, lengths))} )\n)\n"


def plan(kind):
    yield "PLAN ( caller 1 plan 1 version 0 position 0 DEMANDS ( "
    for k, name in enumerate(kind.names):
        a, b = kind.demand(k)
        yield f"{name} ( {kind.nodes[a]} {kind.nodes[b]} )\n{money(kind.need)} "
    yield f")\ncost {money(2 * NODES * kind.count * 1000)} bound 0.000 raw 0 1 MODULES ( "
    yield "".join(f"{name} ( {kind.count} )\n" for name in kind.links)
    yield ")\nCERTIFICATE ( 1 )\nROUTES "
    yield from routes(kind)
    yield "loose cuts )\n"


def separations(kind):
    for j in range(64):
        yield f"UNSURVIVABLE ( caller 1 plan {j + 1} version {kind.edits} position {kind.edits} state 1 S001 demand {kind.names[0]} )\n"


def report(kind):
    yield "?planner report; version: 1\nNOTES ( )\nJOURNAL ( "
    yield "".join(f"( {i + 1} cut {i} )\n" for i in range(kind.lines))
    yield "".join(f"( {i + 1} caller 1 set {kind.names[-1]} 2.000 accepted {i + 1} )\n" for i in range(kind.edits))
    yield ")\nPOOL ( "
    yield from pool(kind)
    yield ")\nOUTCOMES ( "
    yield from separations(kind) if kind.edits else plan(kind)
    yield ")\n"


def main():
    folder, name = sys.argv[1], sys.argv[2]
    lines = int(sys.argv[3]) if len(sys.argv) > 3 else 4096
    kind = {
        "pool": lambda: Kind(1, NODES, 64, 1, lines),
        "states": lambda: Kind(257, 2048, 5, 1, 0),
        "large": lambda: Kind(257, 2048, 35, 1, 0),
        "short": lambda: Kind(140, 2048, 1, 32, 0, short=True),
        "journal": lambda: Kind(2, 2048, 5, 1, 0),
    }[name]()
    kind.edits = 65536 if name == "journal" else 0
    for file, parts in ("network", network), ("failures", failures), ("report", report):
        with open(os.path.join(folder, file), "w", encoding="ascii") as to:
            to.writelines(parts(kind))


main()

#!/usr/bin/env python3
"""Writes FOLDER/net.txt, FOLDER/model.txt and FOLDER/flows.txt: a network of 128 nodes, 256 links and 2,048 demands, a model by which
each link may fail alone, and a file of flows of nearly 16 MiB for its 257 states, of which the last parenthesis is missing. So the file
is read to its end and refused, and nothing is planned."""

import sys
from pathlib import Path

NODES, LINKS, DEMANDS, LIMIT = 128, 256, 2048, 2**24


def ends(link):
    """A ring of all nodes, and a second one of chords."""
    step = 1 if link < NODES else 7
    return link % NODES, (link + step) % NODES


def network():
    links = "".join(f"l{e} ( n{ends(e)[0]} n{ends(e)[1]} ) 0 0 0 0 ( 1 1 )\n" for e in range(LINKS))
    demands = "".join(f"d{k} ( n{k % NODES} n{(k + 1 + k // NODES) % NODES} ) 1 1 UNLIMITED\n" for k in range(DEMANDS))
    nodes = " ".join(f"n{i}" for i in range(NODES))
    return f"?SNDlib native format; type: network; version: 1.0\nNODES ( {nodes} )\nLINKS (\n{links})\nDEMANDS (\n{demands})\n"


def model():
    values = ["DEMAND_MODEL = UNDIRECTED", "LINK_MODEL = UNDIRECTED", "LINK_CAPACITY_MODEL = MODULAR_CAPACITIES"]
    values += ["FIXED_CHARGE_MODEL = NO", "ROUTING_MODEL = CONTINUOUS", "ADMISSIBLE_PATH_MODEL = ALL_PATHS"]
    values += ["HOP_LIMIT_MODEL = NO", "SURVIVABILITY_MODEL = UNRESTRICTED_FLOW_RECONFIGURATION"]
    return "\n".join(["?SNDlib native format; type: model; version: 1.0", *values, ""])


def flows():
    counts = "".join(f"l{e} ( 9 )\n" for e in range(LINKS))
    text = [f"?planner flows; version: 1\nMODULES (\n{counts})\nFLOWS (\n"]
    room = LIMIT - 1024 * 8
    share = (room - len(text[0])) // (LINKS + 1)
    for s in range(LINKS + 1):
        text.append("none (\n" if s == 0 else f"l{s - 1} (\n")
        size, i = 0, 0
        while size < share - 64:
            e, k = i % LINKS, (i * 1021 + s) % DEMANDS
            text.append(f"d{k} l{e} n{ends(e)[0]} 1\n")
            size += len(text[-1])
            i += 1
        text.append(")\n")
    return "".join(text)


def main():
    folder = Path(sys.argv[1])
    for name, text in (("net", network()), ("model", model()), ("flows", flows())):
        (folder / f"{name}.txt").write_text(text)
        print(name, len(text))


if __name__ == "__main__":
    main()

#!/usr/bin/env python3
"""Writes a network with places of nodes, and a report of a plan of it where each link fails alone.

Usage: networks.py largest|printable NET REPORT

`largest` has the most nodes and links, 128 and 256, with names of 20 bytes: a ring whose neighbours have two links between them. Where the first
link fails its demand is split three ways that take all other links, so that a picture of that state has the most to say.
`printable` is a triangle in which each name of a node and of a link has every printable byte that a name may have: all but the parentheses.
"""
import sys

HEADER = "?SNDlib native format; type: network; version: 1.0"
BYTES = [chr(byte) for byte in range(0x21, 0x7F) if chr(byte) not in "()"]


def network(nodes, links):
    """Nodes are names with places, links names with ends."""
    lines = [HEADER, "NODES ("]
    lines += [f"  {name} ( {x} {y} )" for name, x, y in nodes]
    lines += [")", "LINKS ("]
    lines += [f"  {name} ( {a} {b} ) 0.00 0.00 0.00 0.00 ( 155.00 12345.00 622.00 45678.00 )" for name, a, b in links]
    return lines + [")", "DEMANDS (", f"  D ( {links[0][1]} {links[0][2]} ) 1 3000.00 UNLIMITED", ")"]


def report(links, ways):
    """A demand of 3000 along the first link; where that fails, along these ways in equal parts."""
    cost = len(links) * (12 * 12345 + 10 * 45678)
    lines = ["?planner report; version: 1", "NOTES ( ) JOURNAL ( ) POOL ( ) OUTCOMES ( PLAN ( caller 1 plan 1 version 0 position 0"]
    lines += [f"DEMANDS ( D ( {links[0][1]} {links[0][2]} ) 3000.000 )", f"cost {cost}.000 bound 0.000 raw 0 1", "MODULES ("]
    lines += [f"  {name} ( 12 10 )" for name, _, _ in links]
    lines += [") CERTIFICATE ( 1 )", "ROUTES ("]
    first = f"( D 3000000 ( {links[0][0]} ) )"
    parts = " ".join(f"D {3000000 // len(ways)} ( {' '.join(way)} )" for way in ways)
    for state, name in enumerate(["none"] + [link[0] for link in links]):
        lines.append(f"  state {state} {name} 1 {f'( {parts} )' if state == 1 else first}")
    return lines + [") loose cuts", ") )"]


def largest():
    """Nodes go to the east in the even rows of a map and back in the odd ones."""
    names = [f"node_of_the_ring_{100 + n}" for n in range(128)]
    places = [(n % 16 if n // 16 % 2 == 0 else 15 - n % 16, n // 16) for n in range(128)]
    nodes = [(name, f"{x}.25", f"{y}.50") for name, (x, y) in zip(names, places)]
    links = [(f"link_of_the_ring_{100 + e}", names[e % 128], names[(e + 1) % 128]) for e in range(256)]
    link = [name for name, _, _ in links]
    return nodes, links, [[link[128]], link[127:0:-1], link[255:128:-1]]


def printable():
    """Each name begins at another byte."""
    names = ["".join(BYTES[at:] + BYTES[:at]) for at in (0, 11, 22, 33, 44, 55)]
    a, b, c, *links = names
    nodes = [(a, "-1.5", "50.0"), (b, "2.25", "48.5"), (c, "4", "52.125")]
    return nodes, [(links[0], a, b), (links[1], b, c), (links[2], a, c)], [[links[2], links[1]]]


def main(which, net, told):
    nodes, links, ways = {"largest": largest, "printable": printable}[which]()
    for path, lines in ((net, network(nodes, links)), (told, report(links, ways))):
        with open(path, "w", encoding="ascii") as file:
            file.write("\n".join(lines) + "\n")


main(*sys.argv[1:])

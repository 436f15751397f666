#!/usr/bin/env python3
"""Writes a file of the greatest size that is read, nearly all of which is one thing: 16 MiB of a network, of failures or of a script, and 256 MiB
of a report.

Usage: generate.py KIND FILE
"""
import sys

INPUT, REPORT = 1 << 24, 1 << 28
NETWORK = b"?SNDlib native format; type: network; version: 1.0\n"
NODES = b"NODES ( A B C )\n"
LINKS = b"LINKS ( AB ( A B ) 0 0 0 0 ( 10.00 5.00 ) BC ( B C ) 0 0 0 0 ( 10.00 5.00 ) AC ( A C ) 0 0 0 0 ( 10.00 5.00 ) )\n"
DEMANDS = b"DEMANDS ( D1 ( A C ) 1 12.00 UNLIMITED )\n"
TRIANGLE = NODES + LINKS + DEMANDS
PLAN = b"""?planner report; version: 1
NOTES ( )
JOURNAL ( ( 1 cut 0 ) )
POOL ( ( 0 state 0 right 12000 ( 1 1 1 ) ) )
OUTCOMES ( PLAN ( caller 1 plan 1 version 0 position 0 DEMANDS ( D1 ( A C ) 12.000 )
cost 10.000 bound 10.000 raw 6000 1 MODULES ( AB ( 0 ) BC ( 0 ) AC ( 2 ) )
CERTIFICATE ( 2 ( 1 pool 0 right 12000 ) )
ROUTES ( state 0 none 1 ( D1 12000 ( AC ) ) )
tight 1 ( 0 0 6000 ) ( state 0 none 1 ( D1 12000 ( AC ) ) ) ) )
"""
SCRIPT = b"?planner script; version: 1\ncaller 1 drop "
FAILURES = b"?planner failures; version: 1\nFAILURES ( f ( "


def filled(size, front, piece, end=b""):
    """The front and the end, and between them as often as it goes the piece, and then spaces."""
    room = size - len(front) - len(end)
    times = room // len(piece)
    return front + piece * times + b" " * (room - times * len(piece)) + end


def nested(size, front, end):
    depth = (size - len(front) - len(end)) // 2
    return filled(size, front, b"(" * depth + b")" * depth, end)


def behind(part, text=PLAN):
    """The text up to the end of a part, and what comes after it."""
    at = text.index(part) + len(part)
    return text[:at], text[at:]


def report(part, piece):
    return filled(REPORT, *behind(part)[:1], piece, behind(part)[1])


def demands():
    front, end = behind(b"DEMANDS ( ")
    names = (b"%07x ( A C ) 1 " % n for n in range((REPORT - len(front) - len(end)) // 18))
    return filled(REPORT, front + b"".join(names), b" ", end)


KINDS = {
    "network-opening": lambda: filled(INPUT, NETWORK + b"META ", b"("),
    "network-nested": lambda: nested(INPUT, NETWORK + b"META (", b")\n" + TRIANGLE),
    "network-word": lambda: filled(INPUT, NETWORK + b"NODES ( ", b"n"),
    "network-comment": lambda: filled(INPUT, NETWORK + b"#", b"c", b"\n" + TRIANGLE),
    "network-comments": lambda: filled(INPUT, NETWORK, b"#\n", TRIANGLE),
    "network-digits": lambda: filled(INPUT, NETWORK + NODES + b"LINKS ( AB ( A B ) ", b"9"),
    "network-zeros": lambda: filled(INPUT, NETWORK + NODES + LINKS + b"DEMANDS ( D1 ( A C ) 1 ", b"0", b"12.00 UNLIMITED )"),
    "network-places": lambda: filled(INPUT, NETWORK + NODES + LINKS + b"DEMANDS ( D1 ( A C ) 1 12.", b"0", b" UNLIMITED )"),
    "network-header": lambda: filled(INPUT, NETWORK[:-1], b" ", b"\n" + TRIANGLE),
    "failures-links": lambda: filled(INPUT, FAILURES, b"AB ", b") )"),
    "script-word": lambda: filled(INPUT, SCRIPT, b"n"),
    "report-opening": lambda: filled(REPORT, PLAN[:PLAN.index(b"( 1 cut")], b"("),
    "report-word": lambda: filled(REPORT, PLAN + b"#\n", b"n"),
    "report-comment": lambda: filled(REPORT, PLAN + b"#", b"c"),
    "report-comments": lambda: report(b"NOTES ( )\n", b"#\n"),
    "report-spaces": lambda: report(b"NOTES ( )", b" "),
    "report-digits": lambda: report(b"cut 0 ) )\nPOOL ( ( 0 state 0 right 12000", b"0"),
    "report-zeros": lambda: report(b"cost ", b"0"),
    "report-places": lambda: report(b"cost 10.000", b"0"),
    "report-path": lambda: report(b"none 1 ( D1 12000 ( ", b"AC "),
    "report-demands": demands,
}

kind, name = sys.argv[1:]
text = KINDS[kind]()
assert len(text) == (REPORT if kind.startswith("report") else INPUT)
with open(name, "wb") as out:
    out.write(text)

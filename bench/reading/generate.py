#!/usr/bin/env python3
"""Writes a file of exactly 16 MiB, the greatest size that is read.

Usage: generate.py skipped        the triangle, after comments and a section META that fill the file
       generate.py parentheses    a section META of opening parentheses, which is refused at the end of the file
       generate.py links          256 links and 2,048 demands, then admissible paths of many links, each the last of the list
       generate.py lines          the same network, then many lines of admissible paths, each of the last demand
"""
import sys

SIZE = 1 << 24
HEADER = "?SNDlib native format; type: network; version: 1.0\n"
COMMENT = "# a comment, as long as a line of a file is when it has text in it\n"
TRIANGLE = """NODES ( A B C )
LINKS (
  AB ( A B ) 0 0 0 0 ( 10.00 5.00 )
  BC ( B C ) 0 0 0 0 ( 10.00 5.00 )
  AC ( A C ) 0 0 0 0 ( 10.00 5.00 )
)
DEMANDS (
  D1 ( A C ) 1 12.00 UNLIMITED
)
"""


def skipped():
    comments = COMMENT * (SIZE // 2 // len(COMMENT))
    rest = SIZE - len(HEADER + comments + "META (\n)\n" + TRIANGLE)
    words = ("granularity = instance ( x ) " * (rest // 29 + 1))[: rest // 29 * 29]
    return HEADER + comments + "META (\n" + words + " " * (rest - len(words)) + ")\n" + TRIANGLE


def parentheses():
    return HEADER + "META " + "(" * (SIZE - len(HEADER + "META "))


def with_paths(line):
    links = "".join(f"L{i:03d} ( A B ) 0 0 0 0 ( 1 1 )\n" for i in range(256))
    demands = "".join(f"D{i:04d} ( A B ) 1 1 UNLIMITED\n" for i in range(2048))
    front = HEADER + "NODES ( A B )\nLINKS (\n" + links + ")\nDEMANDS (\n" + demands + ")\nADMISSIBLE_PATHS (\n"
    lines = line * ((SIZE - len(front) - 2) // len(line))
    return front + lines + ")" + " " * (SIZE - len(front) - len(lines) - 1)


def links():
    return with_paths("D2047 ( P ( " + "L255 " * 2000 + ") )\n")


def lines():
    return with_paths("D2047 ( P ( L255 ) )\n")


text = {"skipped": skipped, "parentheses": parentheses, "links": links, "lines": lines}[sys.argv[1]]()
assert len(text) == SIZE
sys.stdout.write(text)

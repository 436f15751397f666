#!/usr/bin/env python3
"""Writes a packing program like those that route demands: a row for each link and for each demand, and five columns for
each demand, each of gain 1 with an entry 1 in the demand's row and in the rows of two to five links.

Usage: generate.py ROWS        for `main.rs`: a line of bounds, then a line of rows for each column
       generate.py ROWS lp     in CPLEX LP format
"""
import sys


def draws(seed):
    """Numbers of a linear congruence modulo 2^64."""
    while True:
        seed = (seed * 6364136223846793005 + 1442695040888963407) % 2**64
        yield seed >> 33


def program(rows):
    links = rows // 2
    numbers = draws(rows)
    draw = lambda below: next(numbers) % below
    columns = []
    for demand in range(links, rows):
        for _ in range(5):
            columns.append(sorted({draw(links) for _ in range(2 + draw(4))}) + [demand])
    return [1000 + draw(100000) for _ in range(rows)], columns


def main():
    bounds, columns = program(int(sys.argv[1]))
    if sys.argv[2:] != ["lp"]:
        print(*bounds)
        for column in columns:
            print(*column)
        return
    print("Maximize\n gain:", "\n  + ".join(f"x{c}" for c in range(len(columns))))
    print("Subject To")
    for row, bound in enumerate(bounds):
        of = [c for c, column in enumerate(columns) if row in column]
        if of:
            print(f" r{row}:", "\n  + ".join(f"x{c}" for c in of), f"<= {bound}")
    print("End")


if __name__ == "__main__":
    main()

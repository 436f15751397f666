#!/usr/bin/env python3
"""Solves programs in CPLEX LP format by the exact solvers that are there: exact.py FOLDER PROGRAM .. prints the optimum and the mean
processor time of five runs."""
import os
import re
import resource
import shutil
import subprocess
import sys

RUNS = 5


def main():
    room = sys.argv[1]
    solution = os.path.join(room, "solution")
    for program in sys.argv[2:]:
        for command, value in (
            (["glpsol", "--exact", "--lp", program, "-o", solution], r"^Objective: .*= (\S+)"),
            (["esolver", "-L", "-O", solution, program], r"Value = (\S+)"),
        ):
            if shutil.which(command[0]) is None:
                continue
            begin = resource.getrusage(resource.RUSAGE_CHILDREN).ru_utime
            for _ in range(RUNS):
                subprocess.run(command, check=True, stdout=subprocess.DEVNULL, stderr=subprocess.DEVNULL)
            time = (resource.getrusage(resource.RUSAGE_CHILDREN).ru_utime - begin) / RUNS
            with open(solution, encoding="utf-8") as text:
                found = re.search(value, text.read(), re.M)
            print(f"  {command[0]}: optimum {found.group(1)}, {1000 * time:.1f} ms")


main()

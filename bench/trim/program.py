#!/usr/bin/env python3
"""Processor time of the program's commands `plan` and `trim` for sample networks with every single-link failure.

Usage: bench/trim/program.py NODES ..      at the top of the repository, once the program is built

Prints a row for each number of nodes: means over seeds 1 to 10 of the least of three runs, in thousandths of a second, and what `trim`
takes beyond `plan`, over `plan`.
"""
import resource
import subprocess
import sys
import tempfile

PROGRAM = "crates/planner_top/out/planner_top"
MODEL = "crates/planner_top/data/model.txt"


def taken():
    usage = resource.getrusage(resource.RUSAGE_CHILDREN)
    return usage.ru_utime + usage.ru_stime


def least(command, network):
    best = None
    for _ in range(3):
        before = taken()
        subprocess.run([PROGRAM, command, network, MODEL], stdout=subprocess.DEVNULL, check=True)
        spent = taken() - before
        best = spent if best is None else min(best, spent)
    return best


def row(nodes):
    plan = trim = 0
    for seed in range(1, 11):
        sample = ["python3", "bench/sample/sample.py", str(seed), nodes, "file"]
        with tempfile.NamedTemporaryFile() as network:
            network.write(subprocess.run(sample, capture_output=True, check=True).stdout)
            network.flush()
            plan += least("plan", network.name)
            trim += least("trim", network.name)
    print(f"| {nodes} | {100 * plan:.1f} | {100 * trim:.1f} | {(trim - plan) / plan:.2f} |")


if __name__ == "__main__":
    print("| Nodes | `plan`, ms | `trim`, ms | Beyond `plan` |\n|---|---|---|---|")
    for nodes in sys.argv[1:]:
        row(nodes)

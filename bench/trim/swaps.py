#!/usr/bin/env python3
"""What the exchanges of modules cost beside the planning, in instructions of the program as built by `rt run`.

`prove` exchanges modules before its search. Counted are the instructions of that, and of the whole
command `plan`, by `valgrind --tool=callgrind`, for samples of ten seeds whose links may all fail.

Usage: swaps.py PROGRAM NODES ..
"""
import re
import subprocess
import sys
import tempfile
from concurrent.futures import ThreadPoolExecutor

SAMPLE = "bench/sample/sample.py"
MODEL = "crates/planner_top/data/model.txt"


def count(program, words, symbol):
    """The instructions of a run: all, and those within the function whose name ends so."""
    with tempfile.NamedTemporaryFile() as out:
        tool = ["valgrind", "--tool=callgrind", f"--callgrind-out-file={out.name}"]
        subprocess.run([*tool, program, *words], check=True, capture_output=True)
        told = ["callgrind_annotate", "--inclusive=yes", "--threshold=100", out.name]
        text = subprocess.run(told, check=True, capture_output=True, text=True).stdout
    whole = int(re.search(r"([\d,]+).*PROGRAM TOTALS", text)[1].replace(",", ""))
    found = [line for line in text.split("\n") if symbol in line]
    within = max((int(line.split()[0].replace(",", "")) for line in found), default=0)
    return whole, within


def measure(program, nodes, seed):
    """The instructions of `plan`, and of the exchanges of `prove 1`."""
    with tempfile.NamedTemporaryFile("w") as network:
        made = [sys.executable, SAMPLE, str(seed), str(nodes), "file"]
        network.write(subprocess.run(made, check=True, capture_output=True, text=True).stdout)
        network.flush()
        plan, _ = count(program, ["plan", network.name, MODEL], "plan_once")
        _, swap = count(program, ["prove", "1", network.name, MODEL], "plan_swaps::cheaper_plan::swap ")
    return plan, swap


def main():
    program = sys.argv[1]
    print("| Nodes | `plan`, millions | Exchanges, millions | Exchanges / `plan` |\n|---|---|---|---|")
    for nodes in map(int, sys.argv[2:]):
        with ThreadPoolExecutor(3) as pool:
            both = list(pool.map(lambda seed: measure(program, nodes, seed), range(1, 11)))
        plan, swap = (sum(b[i] for b in both) / len(both) / 1e6 for i in (0, 1))
        print(f"| {nodes} | {plan:.1f} | {swap:.2f} | {swap / plan:.3f} |", flush=True)


if __name__ == "__main__":
    main()

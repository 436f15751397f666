#!/usr/bin/env python3
"""Runs a command of rt, and prints how much processor time its checks took, by crate.

    bench/first_proof/by_crate.py rt ci --anew

While the command runs, the time that each process has used is read from /proc three times a second, so that what a process uses after
the last look, and processes that live shorter, are missing: the last line has the whole time beside the sum. The checks of a crate's
edits, the proof that they begin with among them, run in folders of their own and are a column apart.
"""

import os
import re
import resource
import subprocess
import sys
import time
from collections import defaultdict

TICKS = os.sysconf("SC_CLK_TCK")


def look(seen):
    """Notes for each process of the prover its crate, whether it tries an edit, and the time that it has used."""
    for pid in filter(str.isdigit, os.listdir("/proc")):
        try:
            with open(f"/proc/{pid}/cmdline") as file:
                words = file.read()
            name = re.search(r"--crate-name\0(\w+)", words)
            if name is None:
                continue
            with open(f"/proc/{pid}/stat") as file:
                numbers = file.read().rsplit(")", 1)[1].split()
            tries = "rt-edit" in os.readlink(f"/proc/{pid}/cwd")
        except OSError:
            continue
        used = (int(numbers[11]) + int(numbers[12])) / TICKS
        seen[pid, numbers[19]] = name[1], tries, used


def main():
    seen = {}
    begin = time.time()
    command = subprocess.Popen(sys.argv[1:])
    while command.poll() is None:
        look(seen)
        time.sleep(0.3)

    table = defaultdict(lambda: [0.0, 0.0])
    for name, tries, used in seen.values():
        table[name][tries] += used
    print(f"{'crate':22}{'proof s':>10}{'edits s':>10}")
    for name, (proof, edits) in sorted(table.items(), key=lambda row: -sum(row[1])):
        print(f"{name:22}{proof:10.0f}{edits:10.0f}")
    whole = resource.getrusage(resource.RUSAGE_CHILDREN)
    proofs, edits = (sum(row[i] for row in table.values()) / 60 for i in (0, 1))
    print(f"proofs {proofs:.1f}, edits {edits:.1f}, all {(whole.ru_utime + whole.ru_stime) / 60:.1f} processor minutes,"
          f" {(time.time() - begin) / 60:.1f} minutes of wall time")
    sys.exit(command.returncode)


if __name__ == "__main__":
    main()

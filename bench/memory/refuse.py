"""Refuses each allocation of a command in turn, and looks at what the program then says.

The program may end with the status of no memory and nothing written, or say what it says without a refusal. The callers of a session run beside
each other, so that its report may differ from run to run; and where memory runs out for the set of nodes near to a cut, the cut itself is taken,
so that a plan may become another. There it may write a report that `check` accepts.

Ends with status 1 where the program ends in another way.
"""
import os
import subprocess
import sys
from collections import Counter
from concurrent.futures import ThreadPoolExecutor

NO_MEMORY = 14


def run(program, words, library=None, number=0, told=None):
    """The status and the output of a run, in which one allocation is refused."""
    env = dict(os.environ)
    if library:
        env.update(LD_PRELOAD=library, REFUSED=str(number), TOLD=told)
    ended = subprocess.run([program, *words], capture_output=True, env=env, timeout=120)
    return ended.returncode, ended.stdout, ended.stderr


def refused(program, words, library, work, number):
    """What came of a run whose allocation of this number is refused; None where there are fewer."""
    told = os.path.join(work, f"told-{number}")
    ended = run(program, words, library, number, told)
    if not os.path.exists(told):
        return None
    os.remove(told)
    return ended


def is_other_report(program, words, work, ended):
    """Whether a plan, a session or an import wrote a whole report, as `check` says."""
    if words[0] not in ("plan", "session", "import") or ended[0] != 0:
        return False
    report = os.path.join(work, "other-report")
    with open(report, "wb") as out:
        out.write(ended[1])
    files = (words[1:4] + ["default", "default"])[:3]
    return run(program, ["check", *files, report])[0] == 0


def answers(program, words, library, work):
    """How often each answer came, and the answers that may not come."""
    plain = run(program, words)
    counts, wrong = Counter(), []
    first, step = 1, 64
    with ThreadPoolExecutor(2) as pool:
        while True:
            numbers = range(first, first + step)
            found = list(pool.map(lambda n: refused(program, words, library, work, n), numbers))
            for number, ended in zip(numbers, found):
                if ended is None:
                    continue
                if ended == (NO_MEMORY, b"", b""):
                    counts["no memory"] += 1
                elif ended == plain:
                    counts["the same answer"] += 1
                elif is_other_report(program, words, work, ended):
                    counts["another report that is accepted"] += 1
                else:
                    wrong.append(f"allocation {number}: status {ended[0]}, {len(ended[1])} bytes")
            if found[-1] is None:
                return counts, wrong
            first += step


def main():
    program, library, work, *words = sys.argv[1:]
    counts, wrong = answers(program, words, library, work)
    names = " ".join(os.path.basename(word) for word in words)
    parts = ", ".join(f"{count} times {answer}" for answer, count in sorted(counts.items()))
    print(f"{names}: {sum(counts.values()) + len(wrong)} allocations refused, {parts}, {len(wrong)} wrong answers")
    for line in wrong:
        print(line)
    sys.exit(1 if wrong else 0)


main()

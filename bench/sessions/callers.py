"""Times sessions of 1,000 edits of the four towns' demands, shared by 1, 2, 4 and 8 callers: the least of 30 runs of each."""
import subprocess
import sys
import time

program, towns, model, script = sys.argv[1:]


def seconds():
    begun = time.perf_counter()
    subprocess.run([program, "session", towns, model, "default", script], stdout=subprocess.DEVNULL, check=True)
    return time.perf_counter() - begun


for callers in [1, 2, 4, 8]:
    with open(script, "w") as out:
        out.write("?planner script; version: 1\n")
        for i in range(1000):
            out.write(f"caller {i % callers + 1} set D{i % 3 + 1} {i % 97}\n")
    least = min(seconds() for _ in range(30))
    print(f"{callers} callers: {least * 1000:.1f} ms, {1000 / least:.0f} edits a second")

"""Reads lines of a place, threads, notes and microseconds, and prints turns per second: the median of the rounds, the least and the greatest."""
import statistics
import sys

rates = {}
for line in sys.stdin:
    place, threads, notes, micros = line.split()
    rates.setdefault((int(threads), place), []).append(int(notes) / int(micros))

print("| Threads | Desk | std's mutex | Ratio | Rust's mutex | Ratio |")
print("|---|---|---|---|---|---|")
for threads in sorted({threads for threads, _ in rates}):
    of = {place: rates[threads, place] for place in ("desk", "mutex", "rust")}
    middle = {place: statistics.median(all) for place, all in of.items()}
    told = {place: f"{middle[place]:.2f} ({min(all):.2f} to {max(all):.2f})" for place, all in of.items()}
    ratio = {place: f"{middle[place] / middle['desk']:.1f}" for place in of}
    print(f"| {threads} | {told['desk']} | {told['mutex']} | {ratio['mutex']} | {told['rust']} | {ratio['rust']} |")

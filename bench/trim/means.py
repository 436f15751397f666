"""Reads lines of the measuring program and prints a table of means, a row for each number of nodes.

The least costs are those that an integer program over the cuts found, another program than this one.
"""
import sys

LEAST = {
    6: [269, 373, 277, 352, 378, 510, 278, 495, 440, 474],
    8: [536, 695, 552, 608, 709, 586, 795, 641, 1003, 899],
    10: [935, 1131, 1129, 985, 1271, 1329, 787, 1127, 1373, 1005],
    12: [1045, 1527, 1215, 1283, 1328, 1288, 1890, 1551, 2504, 1580],
    16: [2267, 2594, 2516, 2005, 2189, 2129, 2613, 2393, 2855, 2763],
}
HEAD = [
    "Network", "Plan / least", "Trimmed / least", "Swapped / least", "Worst of these", "Trimmed / plan", "Swapped / plan",
    "Plan, ms", "Trim, ms", "Swaps, ms", "Asks of trim", "By a known cut", "Mended", "Asked", "Programs",
    "Asks of swaps", "By a known cut", "Mended", "Asked", "Programs",
]


def numbers(words):
    """The counts of a list."""
    return [int(w.strip("[],")) for w in words]


def main():
    rows = {}
    for line in sys.stdin:
        words = line.split()
        costs, times = [int(w) for w in words[1:4]], [float(w) for w in words[6:9]]
        seed, _, nodes = words[0].partition(".")
        least = LEAST[int(nodes)][int(seed) - 1] * 1000 if nodes else None
        rows.setdefault(f"{nodes} nodes" if nodes else seed, []).append((costs, least, times, numbers(words[10:15]) + numbers(words[16:21])))
    print("| " + " | ".join(HEAD) + " |")
    print("|---" * len(HEAD) + "|")
    for name, all_of in rows.items():
        def mean(of):
            return sum(map(of, all_of)) / len(all_of)
        over = [f"{mean(lambda r: r[0][i] / r[1]):.3f}" if all_of[0][1] else "" for i in range(3)]
        over.append(f"{max(r[0][2] / r[1] for r in all_of):.3f}" if all_of[0][1] else "")
        over += [f"{mean(lambda r: r[0][i] / r[0][0]):.3f}" for i in (1, 2)]
        times = [f"{mean(lambda r: r[2][i]):.2f}" for i in range(3)]
        counts = [f"{mean(lambda r: r[3][i]):.0f}" for i in range(10)]
        print("| " + " | ".join([name, *over, *times, *counts]) + " |")


if __name__ == "__main__":
    main()

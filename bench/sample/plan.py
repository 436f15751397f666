"""Plans a sample apart from the code, with every single-link failure.

python3 plan.py SEED N            the size, the fallback plan's cost, and the least cost of fractional modules
python3 plan.py SEED N REPORT     also what the report's plan says of each, and what its modules and its share's covers cost

The least cost of fractional modules is that of a linear program: capacities at the unit prices of the modules that are cheapest for
their capacity, and in each state flows that carry all demands. It is solved by glpsol (Debian's glpk-utils) and given as the nearest
fraction with a denominator below 100,000. It is the raw value of a tight plan.
"""
import re
import subprocess
import sys
import tempfile
from fractions import Fraction
from functools import reduce
from math import ceil, gcd

from sample import sample


def links_and_demands(seed, n):
    """The ends of each link with its modules, as capacity and cost, and the demands, all in thousandths."""
    links, demands = sample(seed, n)
    modules = [(a, b, [(155000, small * 1000), (622000, large * 1000)]) for a, b, small, large in links]
    return modules, [(a, b, need * 1000) for a, b, need in demands]


def distances(n, links, fails, lengths, start):
    """Least lengths from a node by Bellman and Ford."""
    far = {start: 0}
    for _ in range(n):
        for e, (a, b, _) in enumerate(links):
            if e == fails:
                continue
            for u, v in ((a, b), (b, a)):
                if u in far and far[u] + lengths[e] < far.get(v, 10**30):
                    far[v] = far[u] + lengths[e]
    return far


def least_path(n, links, fails, lengths, a, b):
    """Of the shortest paths the first by the numbers of its links, link by link."""
    far = distances(n, links, fails, lengths, b)
    path = []
    while a != b:
        for e, (u, v, _) in enumerate(links):
            if e == fails or a not in (u, v):
                continue
            other = v if a == u else u
            if far[other] + lengths[e] == far[a]:
                path.append(e)
                a = other
                break
    return path


def cover(modules, need):
    """The least cost of counts of two modules that reach a need."""
    (small, cost_small), (large, cost_large) = modules
    best = None
    for count in range(need // large + 2):
        left = max(0, need - count * large)
        cost = count * cost_large + -(-left // small) * cost_small
        best = cost if best is None or cost < best else best
    return best if need > 0 else 0


def fallback(n, links, demands):
    """What the plan costs in which each demand takes one shortest path in each state."""
    cheapest = [min(Fraction(cost, cap) for cap, cost in ms) for _, _, ms in links]
    prices = [int(16 * c / max(cheapest)) for c in cheapest]
    greatest = [0] * len(links)
    for fails in [None, *range(len(links))]:
        loads = [0] * len(links)
        for a, b, need in demands:
            for e in least_path(n, links, fails, [p + 1 for p in prices], a, b):
                loads[e] += need
        greatest = [max(g, l) for g, l in zip(greatest, loads)]
    return sum(cover(ms, greatest[e]) for e, (_, _, ms) in enumerate(links))


def program(n, links, demands):
    """The linear program in CPLEX's format: y is a link's capacity, f_s_v_e_d the flow from node v in state s over link e in direction d."""
    rows, costs = [], []
    for e, (_, _, ms) in enumerate(links):
        price = min(Fraction(cost, cap) for cap, cost in ms)
        costs.append(f"{float(price):.17g} y{e}")
    for s, fails in enumerate([None, *range(len(links))]):
        alive = [e for e in range(len(links)) if e != fails]
        for v in range(n - 1):
            for w in range(n):
                if w == v:
                    continue
                need = sum(k for a, b, k in demands if (a, b) == (v, w))
                terms = []
                for e in alive:
                    a, b, _ = links[e]
                    for d, (start, end) in enumerate(((a, b), (b, a))):
                        sign = "+" if end == w else "-" if start == w else ""
                        if sign:
                            terms.append(f"{sign} f_{s}_{v}_{e}_{d}")
                rows.append(" ".join(terms) + f" = {need}")
        for e in alive:
            flows = " ".join(f"+ f_{s}_{v}_{e}_{d}" for v in range(n - 1) for d in (0, 1))
            rows.append(f"{flows} - y{e} <= 0")
    return "Minimize\n cost: " + " + ".join(costs) + "\nSubject To\n" + "\n".join(rows) + "\nEnd\n"


def least_cost(n, links, demands):
    """The least cost of fractional modules, in thousandths."""
    with tempfile.TemporaryDirectory() as room:
        with open(f"{room}/plan.lp", "w") as file:
            file.write(program(n, links, demands))
        subprocess.run(["glpsol", "--lp", f"{room}/plan.lp", "-w", f"{room}/out"], check=True, capture_output=True)
        with open(f"{room}/out") as file:
            objective = next(line for line in file if line.startswith("s bas")).split()[-1]
    return Fraction(objective).limit_denominator(100000)


def money(amount):
    return f"{amount // 1000}.{amount % 1000:03d}"


def read_plan(links, report):
    """What a report's only plan costs, its raw value, and what its modules and the covers of its share cost."""
    text = " ".join(open(report).read().split())
    cost = re.search(r" cost ([0-9.]+) ", text)[1]
    raw = Fraction(*map(int, re.search(r" raw (\d+) (\d+) ", text).groups()))
    modules = re.search(r"MODULES \( (.*?) \) CERTIFICATE", text)[1]
    counts = [list(map(int, c.split())) for c in re.findall(r"\( ([\d ]+?) \)", modules)]
    paid = sum(k * m[1] for c, (_, _, ms) in zip(counts, links) for k, m in zip(c, ms))
    scale, units = re.search(r" tight (\d+) \( ([\d ]+?) \) ", text).groups()
    covers = 0
    for unit, (_, _, ms) in zip(map(int, units.split()), links):
        cap, price = min(ms, key=lambda m: Fraction(m[1], m[0]))
        covers += cover(ms, ceil(Fraction(cap // gcd(cap, price) * unit, int(scale))))
    return cost, raw, paid, covers


def main(seed, n, report=None):
    links, demands = links_and_demands(seed, n)
    step = reduce(gcd, [c for _, _, ms in links for _, c in ms])
    raw = least_cost(n, links, demands)
    print(f"nodes {n} links {len(links)} demands {len(demands)} states {len(links) + 1}")
    print(f"fallback {money(fallback(n, links, demands))}")
    print(f"raw {raw.numerator} {raw.denominator}")
    print(f"bound {money(ceil(raw / step) * step)}")
    if report:
        cost, said, paid, covers = read_plan(links, report)
        print(f"report: cost {cost} raw {said.numerator} {said.denominator}")
        print(f"its modules cost {money(paid)}, the covers of its share {money(covers)}")


main(int(sys.argv[1]), int(sys.argv[2]), *sys.argv[3:])

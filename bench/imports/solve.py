#!/usr/bin/env python3
"""A solver's solution as a file of flows: solve.py NETWORK none|single SECONDS prints one.

The script writes the formulation by flows on links: a whole count for each module, a flow of each demand on each link in each direction
in each state, balance at each node, and the capacity of each surviving link. `glpsol` of GLPK solves it, for at most so many seconds,
and writes its answer as text. Flows are split into paths, which are rounded to thousandths; for that each module is taken to be smaller
by two thousandths for each demand.
"""

import re
import subprocess
import sys
import tempfile
from fractions import Fraction


def tokens(path):
    """The tokens after the header of a network file without comments."""
    with open(path, encoding="utf-8") as file:
        lines = [line for line in file.read().split("\n")[1:] if not line.strip().startswith("#")]
    return re.findall(r"[()]|[^\s()]+", "\n".join(lines))


def part(words, name):
    """The words between a section's parentheses."""
    begin = words.index(name) + 2
    depth, end = 1, begin
    while depth:
        depth += {"(": 1, ")": -1}.get(words[end], 0)
        end += 1
    return words[begin : end - 1]


def network(path):
    """Nodes, links (name, ends, fixed capacity, modules) and demands (name, ends, need)."""
    words = tokens(path)
    nodes = part(words, "NODES")
    links, rest = [], part(words, "LINKS")
    while rest:
        name, a, b, fixed = rest[0], rest[2], rest[3], Fraction(rest[5])
        end = rest.index(")", 10)
        numbers = [Fraction(w) for w in rest[10:end]]
        links.append((name, a, b, fixed, list(zip(numbers[::2], numbers[1::2]))))
        rest = rest[end + 1 :]
    demands, rest = [], part(words, "DEMANDS")
    while rest:
        demands.append((rest[0], rest[2], rest[3], Fraction(rest[5]) * Fraction(rest[6])))
        rest = rest[8:]
    return nodes, links, demands


class Program:
    """A program in the LP format, whose columns are numbered as they come."""

    def __init__(self):
        self.columns, self.rows = {}, []

    def term(self, factor, column):
        self.columns.setdefault(column, len(self.columns) + 1)
        return f"{'-' if factor < 0 else '+'} {float(abs(factor)):.6f} x{self.columns[column]}"

    def row(self, terms, relation, right):
        text = "\n  ".join(self.term(factor, column) for factor, column in terms)
        self.rows.append(f"r{len(self.rows) + 1}: {text} {relation} {float(right):.6f}")


def formulation(nodes, links, demands, states):
    """The program, with the counts first."""
    program = Program()
    cost = [(module[1], ("count", e, m)) for e, link in enumerate(links) for m, module in enumerate(link[4])]
    goal = "\n  ".join(program.term(factor, column) for factor, column in cost)
    counts = [f"x{program.columns[column]}" for _, column in cost]
    room = Fraction(2 * len(demands), 1000)
    for s, failed in enumerate(states):
        alive = [e for e in range(len(links)) if e != failed and links[e][4]]
        for k, (_, start, end, need) in enumerate(demands):
            for node in nodes:
                terms = []
                for e in alive:
                    _, a, b, _, _ = links[e]
                    for way, (out, into) in enumerate(((a, b), (b, a))):
                        if node in (out, into):
                            terms.append((1 if node == out else -1, ("flow", s, k, e, way)))
                if terms:
                    program.row(terms, "=", need * ((node == start) - (node == end)))
        for e in alive:
            flows = [(1, ("flow", s, k, e, way)) for k in range(len(demands)) for way in (0, 1)]
            modules = [(room - capacity, ("count", e, m)) for m, (capacity, _) in enumerate(links[e][4])]
            program.row(flows + modules, "<=", max(links[e][3] - room, 0))
    rows = "\n".join(program.rows)
    text = f"Minimize\ncost: {goal}\nSubject To\n{rows}\nGeneral\n{chr(10).join(counts)}\nEnd\n"
    return program, text


def solved(text, seconds):
    """The value of each column, as the solver writes it."""
    with tempfile.TemporaryDirectory() as folder:
        program, answer = f"{folder}/program.lp", f"{folder}/answer.txt"
        with open(program, "w", encoding="utf-8") as file:
            file.write(text)
        command = ["glpsol", "--lp", program, "--cuts", "--tmlim", str(seconds), "-w", answer]
        log = subprocess.run(command, capture_output=True, text=True, check=True).stdout
        best = [line for line in log.split("\n") if "mip =" in line][-1:]
        print("\n".join(best), file=sys.stderr)
        with open(answer, encoding="utf-8") as file:
            lines = [line.split() for line in file]
    return {int(line[1]): float(line[-1]) for line in lines if line and line[0] == "j"}


def paths(arcs, start, end):
    """Takes paths off the arcs, as long as one leads from the start to the end; circles are left."""
    taken = []
    while True:
        before, todo = {start: None}, [start]
        for node in todo:
            for (e, a, b), left in arcs.items():
                if a == node and b not in before and left > 1e-7:
                    before[b] = (e, a, b)
                    todo.append(b)
        if end not in before:
            return taken
        path, node = [], end
        while before[node]:
            path.append(before[node])
            node = before[node][1]
        amount = min(arcs[arc] for arc in path)
        for arc in path:
            arcs[arc] -= amount
        taken.append((amount, path[::-1]))


def rounded(taken, need):
    """The paths with whole thousandths that sum to the need."""
    total = round(need * 1000)
    least = [int(amount * 1000) for amount, _ in taken]
    order = sorted(range(len(taken)), key=lambda i: least[i] - taken[i][0] * 1000)
    for i in order[: total - sum(least)]:
        least[i] += 1
    if taken:
        least[0] += total - sum(least)
    return [(amount, path) for amount, (_, path) in zip(least, taken) if amount]


def printed(links, demands, states, program, values):
    """The file of flows."""
    def value(column):
        return values.get(program.columns.get(column), 0.0)

    lines = ["?planner flows; version: 1", "MODULES ("]
    for e, (name, _, _, _, modules) in enumerate(links):
        counts = [str(round(value(("count", e, m)))) for m in range(len(modules))]
        lines.append(f"{name} ( {' '.join(counts)} )")
    lines += [")", "FLOWS ("]
    for s, failed in enumerate(states):
        lines.append(f"{'none' if failed is None else links[failed][0]} (")
        for k, (demand, start, end, need) in enumerate(demands):
            arcs = {}
            for e, (_, a, b, _, _) in enumerate(links):
                arcs[(e, a, b)] = value(("flow", s, k, e, 0))
                arcs[(e, b, a)] = value(("flow", s, k, e, 1))
            for amount, path in rounded(paths(arcs, start, end), need):
                whole = f"{amount // 1000}.{amount % 1000:03}"
                lines += [f"{demand} {links[e][0]} {a} {whole}" for e, a, _ in path]
        lines.append(")")
    return "\n".join([*lines, ")", ""])


def main():
    nodes, links, demands = network(sys.argv[1])
    states = [None, *(range(len(links)) if sys.argv[2] == "single" else [])]
    program, text = formulation(nodes, links, demands, states)
    print(printed(links, demands, states, program, solved(text, int(sys.argv[3]))), end="")


if __name__ == "__main__":
    main()

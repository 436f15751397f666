"""Writes a script of 1,000 commands of eight callers, 64 of them plans, for the network of four towns."""
import random
import sys

random.seed(5)
nodes = ["Bonn", "Kiel", "Ulm", "Jena"]
names = ["D1", "D2", "D3"]
lines = []
plans = 0
for k in range(1000):
    caller = random.randint(1, 8)
    kind = random.random()
    if k % 15 == 14 and plans < 64:
        lines.append(f"caller {caller} plan")
        plans += 1
    elif kind < 0.5:
        need = f"{random.randint(0, 200)}.{random.randint(0, 999):03d}"
        lines.append(f"caller {caller} set {random.choice(names)} {need}")
    elif kind < 0.8:
        name = f"E{random.randint(1, 60)}"
        names.append(name)
        ends = f"{random.choice(nodes)} {random.choice(nodes + ['X'])}"
        lines.append(f"caller {caller} add {name} ( {ends} ) {random.randint(1, 50)}")
    else:
        lines.append(f"caller {caller} drop {random.choice(names)}")
sys.stdout.write("?planner script; version: 1\n" + "\n".join(lines) + "\n")

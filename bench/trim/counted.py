"""Puts counters into the plain code of the crates: counts that are asked about, those that a known
cut refuses, states whose last routing is mended, states asked from the kept basis, and those asked by a
routing program.

Usage: counted.py FOLDER
"""
import sys

PLACES = [
    ("able_counts/able_test.rs", "        if let Some(line) = last_violated", "        crate::work(0);\n{}"),
    ("able_counts/able_test.rs", "            return Ok(Some(Stop::Cut(line)));\n", "            crate::work(1);\n{}"),
    ("able_counts/quick.rs", "        *routing = found;", "        crate::work(2);\n{}"),
    ("able_counts/state_stop.rs", "    match warm.ask", "    crate::work(3);\n{}"),
    ("flow_router/route.rs", "    match solve_task", "    crate::work(4);\n{}"),
]


def main():
    for name, line, counted in PLACES:
        path = f"{sys.argv[1]}/{name}"
        with open(path, encoding="utf-8") as file:
            text = file.read()
        assert text.count(line) == 1, (name, line)
        with open(path, "w", encoding="utf-8") as file:
            file.write(text.replace(line, counted.format(line)))


if __name__ == "__main__":
    main()

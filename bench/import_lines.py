#!/usr/bin/env python3
"""Keeps the imports of definitions and lemmas to one line a crate.

A logic file (.antt) and a Rattle file (.rt, in its `ghost use` lines) name each crate once: `use Rattle.c.{specs.A.x, proofs.B.{y, z}}`,
std first, then other crates in the order of their first line, the file's own crate last. Lines that pass words on (`pub use`),
unfold them or rename a whole module (`as goal`) stay as they are, after the others. With --check nothing is written, and each file
that isn't in this form is told. With names of crates, only their files are read.
"""

import re
import sys
from pathlib import Path

TOP = Path(__file__).resolve().parent.parent
LINE = re.compile(r"^(ghost )?use Rattle\.([a-z_0-9]+)\.(.*?)(;?)$")


def items_of(text):
    """The parts of a list between commas that stand in no inner braces."""
    parts, depth, last = [], 0, ""
    for letter in text:
        depth += (letter == "{") - (letter == "}")
        if letter == "," and depth == 0:
            parts.append(last.strip())
            last = ""
        else:
            last += letter
    return [it for it in parts + [last.strip()] if it]


def names_of(path):
    """Each name below a path, as the module that has it and its own text: `A.{x, y as z}` is two."""
    if path.endswith("}"):
        head, inner = path[:-1].split("{", 1)
        head = head.rstrip(".")
        names = []
        for item in items_of(inner):
            names += [(".".join(filter(None, (head, module))), name) for module, name in names_of(item)]
        return names
    if " as " in path:
        path, other = path.split(" as ", 1)
        head, _, name = path.rpartition(".")
        return [(head, f"{name} as {other}")]
    head, _, name = path.rpartition(".")
    return [(head, name)]


def lines_of(found, own, ghost):
    """One line for each crate; std is first and the own crate last."""
    crates = list(found)
    crates.sort(key=lambda it: (it != "std", it == own))
    lines = []
    for crate in crates:
        parts = []
        for module, names in found[crate].items():
            names = list(dict.fromkeys(names))
            if len(names) == 1 and " as " not in names[0]:
                parts.append(f"{module}.{names[0]}")
            else:
                parts.append(f"{module}.{{{', '.join(names)}}}")
        if len(parts) == 1:
            (module, names), = found[crate].items()
            path = f"{module}.{{{', '.join(dict.fromkeys(names))}}}"
        else:
            path = f"{{{', '.join(parts)}}}"
        lines.append(f"ghost use Rattle.{crate}.{path};" if ghost else f"use Rattle.{crate}.{path}")
    return lines


def in_form(text, own):
    """The text with its blocks of imports by crate."""
    done, found, ghost, rest = [], {}, False, []

    def close():
        nonlocal found, rest
        if found:
            done.extend(lines_of(found, own, ghost))
        done.extend(rest)
        found, rest = {}, []

    for line in text.split("\n"):
        match = LINE.match(line)
        if match and match[3].endswith("}") and "*" not in match[3].split("{")[0]:
            ghost = bool(match[1])
            for module, name in names_of(match[3]):
                found.setdefault(match[2], {}).setdefault(module, []).append(name)
        elif found and re.match(r"^(pub |unfoldable )*use ", line) and not ghost:
            rest.append(line)
        else:
            close()
            done.append(line)
    close()
    return "\n".join(done)


def main():
    check = "--check" in sys.argv
    names = [it for it in sys.argv[1:] if not it.startswith("--")]
    folders = [TOP / "crates" / it for it in names] or sorted((TOP / "crates").iterdir())
    wrong = 0
    for folder in folders:
        for part in ("src", "specs", "proofs"):
            for path in sorted((folder / part).rglob("*")):
                if path.suffix not in (".rt", ".antt"):
                    continue
                text = path.read_text()
                new = in_form(text, folder.name)
                if new != text:
                    wrong += 1
                    if check:
                        print(path.relative_to(TOP))
                    else:
                        path.write_text(new)
    if check and wrong:
        sys.exit(f"{wrong} files don't have their imports by crate: run bench/import_lines.py")


if __name__ == "__main__":
    main()

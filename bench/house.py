#!/usr/bin/env python3
"""Draws the house of crates from crates.txt, and tests that no edge of it goes up.

crates.txt has a line for each crate, under headings that are the storeys of the house, lowest first. This writes crates/README.md,
one line a crate under the same headings by the //! lines of its root file, and the picture in docs/ARCHITECTURE.md. It fails where
a crate depends on one of a later line, where no file of a crate names a library that crates.txt gives it, and where a crate has no
line. With --check it writes nothing, and fails also where one of the two files is out of date.
"""

import re
import sys
from pathlib import Path

TOP = Path(__file__).resolve().parent.parent
BEGIN = "<!-- the picture that bench/house.py draws -->"
END = "<!-- the end of the picture -->"


class Crate:
    """A line of crates.txt: its place among the lines, its heading, and the libraries that it names."""

    def __init__(self, name, place, heading, libraries):
        self.name = name
        self.place = place
        self.heading = heading
        self.libraries = libraries
        self.folder = TOP / "crates" / name


def read_crates():
    """The crates of crates.txt by their names. A heading is a comment right above a crate's line."""
    crates = {}
    heading = comment = None
    for line in (TOP / "crates.txt").read_text().splitlines():
        if line.startswith("#"):
            comment = line.lstrip("# ").strip()
        elif ":" in line:
            head, libraries = line.split("#")[0].split(":", 1)
            name = head.split()[0]
            heading, comment = comment or heading, None
            crates[name] = Crate(name, len(crates), heading, libraries.split())
        else:
            comment = None
    return crates


def levels_of(crates):
    """The level of each crate: the length of the longest chain of the repository's crates below it."""
    levels = {}

    def level(name, above):
        if name in above:
            sys.exit("these crates depend on each other: " + " ".join(above[above.index(name):] + (name,)))
        if name not in levels:
            below = [library for library in crates[name].libraries if library in crates]
            levels[name] = max((level(library, above + (name,)) + 1 for library in below), default=0)
        return levels[name]

    for name in crates:
        level(name, ())
    return levels


def text_of(crate):
    """All that a crate's own files say: code, definitions, proofs, and edits."""
    files = []
    for part in ("src", "specs*", "proofs*", "must-fail"):
        for folder in crate.folder.glob(part):
            files += [path for path in folder.rglob("*") if path.suffix in (".rt", ".antt", ".edit")]
    return "\n".join(path.read_text() for path in files)


def names(text, library):
    """Whether a text names a library, as code or as logic does."""
    return re.search(rf"\b{library}::|\bRattle\.{library}\b|\buse {library}\b|\b{library}!", text) is not None


def faults_of(crates):
    """What is wrong with the house, a line each."""
    faults = []
    for crate in crates.values():
        text = text_of(crate)
        for library in crate.libraries:
            if library in crates and crates[library].place >= crate.place:
                faults.append(f"{crate.name} depends on {library}, which has a later line")
            if not names(text, library):
                faults.append(f"crates.txt gives {crate.name} the library {library}, and no file of it names that")
    for folder in sorted((TOP / "crates").iterdir()):
        if (folder / "src").is_dir() and folder.name not in crates:
            faults.append(f"{folder.name} has no line in crates.txt")
    return faults


def sentence_of(crate):
    """The first paragraph of the //! lines of a crate's root file, on one line."""
    root = crate.folder / "src" / "lib.rt"
    if not root.exists():
        root = crate.folder / "src" / "main.rt"
    words = []
    for line in root.read_text().splitlines():
        if not line.startswith("//!") or line == "//!":
            break
        words.append(line[3:].strip())
    return " ".join(words)


def storeys_of(crates):
    """The headings in their order, each with its crates."""
    storeys = {}
    for crate in crates.values():
        storeys.setdefault(crate.heading, []).append(crate)
    return storeys


def list_of(crates):
    """The text of crates/README.md."""
    lines = ["# The crates", ""]
    lines += ["One line each, in the order of `crates.txt`: a crate depends only on crates of earlier lines. `bench/house.py` writes",
              "this page from the first paragraph of each crate's root file."]
    for heading, members in storeys_of(crates).items():
        lines += ["", f"## {heading}", ""]
        lines += [f"- [{crate.name}]({crate.name}): {sentence_of(crate)}" for crate in members]
    return "\n".join(lines) + "\n"


def rows_of(members, levels, width):
    """The crates of a storey, a row for each level, the highest first; a long row goes on below."""
    rows = []
    for level in sorted({levels[crate.name] for crate in members}, reverse=True):
        row, number = "", str(level)
        for crate in members:
            if levels[crate.name] == level:
                if row and len(row) + len(crate.name) + 3 > width:
                    rows.append((number, row))
                    row, number = "", ""
                row += ("   " if row else "") + crate.name
        rows.append((number, row))
    return rows


def picture_of(crates, levels):
    """The picture of the house: its storeys, the highest at the top, and in each its crates by their levels."""
    storeys = storeys_of(crates)
    left = max(len(heading) for heading in storeys) + 2
    right = 60
    edge = "+" + "-" * left + "+-------+" + "-" * (right + 2) + "+"
    lines = [edge, f"|{' storey':{left}}| level | {'crates':{right}} |", edge]
    for heading, members in reversed(storeys.items()):
        title = " " + heading
        for number, row in rows_of(members, levels, right):
            lines.append(f"|{title:{left}}|{number:>5}  | {row:{right}} |")
            title = ""
        lines.append(edge)
    return "\n".join([BEGIN, "```"] + lines + ["```", END])


def main():
    check = sys.argv[1:] == ["--check"]
    if sys.argv[1:] and not check:
        sys.exit("usage: bench/house.py [--check]")
    crates = read_crates()
    levels = levels_of(crates)
    faults = faults_of(crates)

    page = TOP / "docs" / "ARCHITECTURE.md"
    before, mark, rest = page.read_text().partition(BEGIN)
    after = rest.partition(END)[2]
    if not mark or END not in rest:
        sys.exit("docs/ARCHITECTURE.md lacks the marks of the picture")
    written = {TOP / "crates" / "README.md": list_of(crates), page: before + picture_of(crates, levels) + after}
    for path, text in written.items():
        if path.exists() and path.read_text() == text:
            continue
        if check:
            faults.append(f"{path.relative_to(TOP)} is out of date: run bench/house.py")
        else:
            path.write_text(text)

    print(f"{len(crates)} crates under {len(storeys_of(crates))} headings, {max(levels.values()) + 1} levels, {len(faults)} faults")
    for fault in faults:
        print(fault)
    sys.exit(1 if faults else 0)


if __name__ == "__main__":
    main()

#!/usr/bin/env python3
"""Writes the index of names at the end of docs/DEFINITIONS.md: the sections with their numbers, and each definition that the page
explains with the number of the section that first does so. With --check it writes nothing, and fails where the index is out of date."""

import re
import sys
from pathlib import Path

TOP = Path(__file__).resolve().parent.parent.parent
HEAD = re.compile(r"^(?:pub )?(?:abbrev|unfoldable|opaque|record|data) (?:pub )?(?:\{[^}]*\} )?(\S+)")
TITLE = "## Index of names\n"
WIDTH = 120


def defined_names():
    """The names of all definitions in specs/."""
    names = set()
    for path in (TOP / "crates").glob("*/specs/**/*.antt"):
        for line in path.read_text().splitlines():
            head = HEAD.match(line.strip())
            if head:
                names.add(head.group(1))
    return names


def anchor(section):
    """The link to a section, as Markdown names it."""
    return "#" + re.sub(r"[^a-z0-9 -]", "", section.lower()).replace(" ", "-")


def sections_of(text):
    """The sections in their order, apart from the two at the beginning, on what to read and how."""
    titles = [line[3:] for line in text.splitlines() if line.startswith("## ")]
    return [title for title in titles if "to read" not in title]


def places_in(text, names):
    """The section in which each of the names first stands."""
    places, section = {}, None
    sections = sections_of(text)
    for line in text.splitlines():
        if line.startswith("## "):
            section = line[3:]
        elif section in sections:
            for word in re.findall(r"`([^`]+)`", line):
                name = word.split()[0]
                if name in names:
                    places.setdefault(name, section)
    return places


def lines_of(entries):
    """Entries on lines that are as long as a line of code."""
    lines = [""]
    for entry in entries:
        if lines[-1] and len(lines[-1]) + len(entry) + 2 > WIDTH:
            lines.append("")
        lines[-1] += ("  " if lines[-1] else "") + entry
    return lines


def main():
    page = TOP / "docs" / "DEFINITIONS.md"
    text = page.read_text()
    body = text.partition(TITLE)[0]
    places = places_in(body, defined_names())
    numbers = {section: number for number, section in enumerate(sections_of(body), 1)}
    names = sorted(places, key=lambda name: (name.lower(), name))
    lines = [TITLE, "Each name with the number of the section that explains it. `bench/definitions/index.py` writes this list.", ""]
    lines += [", ".join(f"{number} [{section}]({anchor(section)})" for section, number in numbers.items()), "", "```"]
    lines += lines_of([f"{name} {numbers[places[name]]}" for name in names]) + ["```"]
    new = body.rstrip() + "\n\n" + "\n".join(lines) + "\n"
    if sys.argv[1:] == ["--check"]:
        if new != text:
            sys.exit("the index of docs/DEFINITIONS.md is out of date: run bench/definitions/index.py")
    elif sys.argv[1:]:
        sys.exit("usage: bench/definitions/index.py [--check]")
    else:
        page.write_text(new)
    print(f"{len(places)} names")


if __name__ == "__main__":
    main()

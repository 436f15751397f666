#!/usr/bin/env python3
"""Counts the definitions that the contract of a function rests on, with all that they cite in turn.

Usage: count.py [CRATE FILE FUNCTION] [--list]      at the top of the repository; without arguments that of `run`

A definition is an `abbrev`, a `record` or a `data` in some crate's specs/. Its lines are those that are neither blank
nor comments. Words of the standard library, and types that Rust declares, aren't counted.
"""
import glob
import os
import re
import sys
from pathlib import Path

sys.path.insert(0, str(Path(__file__).resolve().parent.parent))
from import_lines import names_of

WORD = re.compile(r"[^\s(){}\[\],;]+")
HEAD = re.compile(r"(?:pub )?(?:abbrev|unfoldable|opaque|record|data) (?:pub )?(?!\{)(\S+)(?=\s|$)")


def imports(lines, prefix):
    """The names that `use` lines bring in: a name to its module and its name there, an alias to its module."""
    names, aliases = {}, {}
    for line in lines:
        line = line.strip().rstrip(";")
        # What a file passes on begins with `pub`.
        line = re.sub(r"^(unfoldable )?pub use ", "use ", line)
        if not line.startswith(prefix + "use Rattle."):
            continue
        path = line[len(prefix) + len("use Rattle."):]
        if " as " in path and ".{" not in path:
            module, alias = path.split(" as ")
            aliases[alias.strip()] = module.strip()
        else:
            for module, name in names_of(path):
                name, _, alias = name.partition(" as ")
                names[(alias or name).strip()] = (module, name.strip())
    return names, aliases


def definitions(path):
    """The definitions of a file: each name with its lines; and the type of each constructor."""
    found, current, constructors = {}, None, {}
    for line in open(path, encoding="utf-8"):
        bare = line.strip()
        if not bare or bare.startswith("--") or re.match(r"(unfoldable )?(pub )?use |infix", bare):
            continue
        if re.match(r"^(pub )?mod(ule)? ", bare):
            current = None
            continue
        head = HEAD.match(bare)
        if head:
            current = head.group(1)
            found.setdefault(current, [])
        elif current and found[current][0].removeprefix("pub ").startswith("data "):
            constructors[bare.split(" ")[0]] = current
        if current:
            found[current].append(bare)
    return found, constructors


class House:
    def __init__(self):
        self.files = {}
        for path in glob.glob("crates/*/specs/**/*.antt", recursive=True):
            crate = path.split("/")[1]
            module = path.split("/specs/")[1][: -len(".antt")].replace("/", ".")
            lines = open(path, encoding="utf-8").read().splitlines()
            self.files[f"{crate}.specs.{module}"] = (*definitions(path), *imports(lines, ""))

    def cited(self, module, lines, own, names, aliases):
        """The definitions that lines cite."""
        for line in lines:
            for word in WORD.findall(line):
                if word in own:
                    yield module, word
                elif word in names:
                    yield names[word]
                elif "." in word and word.split(".", 1)[0] in aliases:
                    alias, name = word.split(".", 1)
                    yield aliases[alias], name
                # An operator is declared with holes, and used without.
                elif f"◌{word}◌" in own:
                    yield module, f"◌{word}◌"
                elif f"◌{word}◌" in names:
                    yield names[f"◌{word}◌"]

    def closure(self, start):
        seen, missing, todo = set(), set(), list(start)
        while todo:
            module, name = todo.pop()
            own, constructors, names, aliases = self.files.get(module, ({}, {}, {}, {}))
            name = constructors.get(name, name)
            if (module, name) in seen:
                continue
            if name not in own and name in names:
                todo.append(names[name])
                continue
            if name not in own:
                # Types that Rust declares are in `declared`, and contracts of traits in `contracts`.
                if not re.match(r"std\.|\w+\.specs\.(declared|contracts)\.", module) and (module, name) not in missing:
                    print(f"not found: {module}.{name}", file=sys.stderr)
                missing.add((module, name))
                continue
            seen.add((module, name))
            todo += self.cited(module, own[name], own, names, aliases)
        return seen


def contract(path, function):
    """The lines of a function's contract, and the imports of its file."""
    lines = open(path, encoding="utf-8").read().splitlines()
    begin = next(i for i, line in enumerate(lines) if re.match(rf"\s*pub fn {function}\b", line))
    end = next(i for i in range(begin, len(lines)) if lines[i].strip() == "{")
    return lines[begin:end], imports(lines, "ghost ")


def main():
    words = [word for word in sys.argv[1:] if word != "--list"]
    crate, file, function = words or ["planner_top", "run.rt", "run"]
    os.chdir(os.path.join(os.path.dirname(os.path.abspath(__file__)), "../.."))
    lines, (names, aliases) = contract(f"crates/{crate}/src/{file}", function)
    house = House()
    seen = house.closure(house.cited("", lines, {}, names, aliases))
    size = lambda it: len(house.files[it[0]][0][it[1]])
    by = {}
    for it in sorted(seen):
        by.setdefault(it[0].split(".")[0], []).append(it)
    print(f"{function} of {crate}: {len(seen)} definitions, {sum(map(size, seen))} lines")
    for name, all_of in sorted(by.items(), key=lambda pair: -sum(map(size, pair[1]))):
        print(f"  {name}: {len(all_of)} definitions, {sum(map(size, all_of))} lines")
        if "--list" in sys.argv:
            for it in all_of:
                print(f"    {it[0].split('.specs.')[1]}.{it[1]}: {size(it)}")


if __name__ == "__main__":
    main()

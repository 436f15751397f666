#!/usr/bin/env python3
"""Writes crates of the repository as modules of plain Rust: their code, with contracts and ghost parts taken out.

Usage: plain.py FOLDER CRATE ..      at the top of the repository

It knows the forms that these crates use. `net_core.rs` beside it stands in for `net_core`: lists and the names of
columns, over Rust's own vectors. The limits are those of `net_core` itself.
"""
import glob
import os
import re
import shutil
import sys


def without(text, begins):
    """Takes out each clause that matches `begins` and goes on to the end of its braces, with a comma or a semicolon."""
    out, at = [], 0
    for found in re.finditer(begins, text):
        if found.start() < at:
            continue
        out.append(text[at:found.start()])
        depth, end = 0, found.end() - 1
        while True:
            depth += {"{": 1, "}": -1}.get(text[end], 0)
            end += 1
            if depth == 0:
                break
        if text[end:end + 1] in (",", ";") and not text[found.start():].lstrip().startswith(("requires", "ensures")):
            end += 1
        at = end
    return "".join(out) + text[at:]


def direct(text, crates):
    """Names each crate by itself, also where the crates name it through another one that hands it on."""
    names = "|".join(crates)
    text = re.sub(rf"^pub use (?:(?:{names})::)*(?:{names});\n", "", text, flags=re.M)
    text = re.sub(rf"^pub use (?:(?:{names})::)*\{{(?:(?:{names})(?:, )?)+\}};\n", "", text, flags=re.M)
    return re.sub(rf"\b(?:(?:{names})::)+(?=(?:{names})::)", "", text)


def plain(text, crate, crates):
    text = direct(text, crates)
    text = re.sub(r"^ghost use [^;]*;\n", "", text, flags=re.M)
    text = re.sub(r"^\s+ghost use [^;]*;\n", "", text, flags=re.M)
    text = re.sub(r"^ *#!?\[tactic[^\n]*\n", "", text, flags=re.M)
    text = re.sub(r"^//![^\n]*\n", "", text, flags=re.M)
    text = without(text, r"\n *(?:requires|ensures)\*? *\w* *\{")
    text = without(text, r"\n *(?:pub )?ghost \w+\s*[:=] *\{")
    text = without(text, r"\nimpl[^\n]* Model for [^\n]*\{")
    text = re.sub(r"#\[cfg\(test\)\]\nmod tests;\n", "", text)
    text = text.replace("use thiserror::Error;\n", "").replace(", Error)]", ")]")
    text = re.sub(r"^ *#\[error\([^\n]*\n", "", text, flags=re.M)
    # Rust drops everything, and its own standard library takes no allocator.
    text = re.sub(r"#\[derive\(Drop\)\]\n", "", text)
    text = re.sub(r" \+ Drop\b", "", text)
    text = re.sub(r"(\w+): Drop(?=[,>])", r"\1", text)
    text = re.sub(r"\bDrop, |, Drop\b", "", text)
    text = re.sub(r": Drop;", ";", text)
    text = re.sub(r": Drop \+ ", ": ", text)
    text = text.replace("use std::alloc::Global;", "use crate::net_core::Global;")
    text = text.replace("use std::marker::Model;\n", "")
    text = re.sub(r"vec!\[in alloc; ([^;\]]*); ([^\]]*)\]", r"crate::net_core::filled(\1, \2)", text)
    text = re.sub(r"\bcrate::(?!net_core)", f"crate::{crate}::", text)
    for other in crates:
        text = re.sub(rf"\buse {other};", rf"use crate::{other};", text)
        text = re.sub(rf"(?<!::)\b{other}::", rf"crate::{other}::", text)
    return text


def main():
    folder, crates = sys.argv[1], sys.argv[2:]
    os.makedirs(folder, exist_ok=True)
    shutil.copy(os.path.join(os.path.dirname(os.path.abspath(__file__)), "net_core.rs"), folder)
    os.makedirs(f"{folder}/net_core", exist_ok=True)
    shutil.copy("crates/net_core/src/limits.rt", f"{folder}/net_core/limits.rs")
    for crate in crates:
        os.makedirs(f"{folder}/{crate}", exist_ok=True)
        with open(f"crates/{crate}/src/lib.rt", encoding="utf-8") as root:
            tested = "#[cfg(test)]\nmod tests;\n" in root.read()
        for path in glob.glob(f"crates/{crate}/src/*.rt"):
            name = os.path.basename(path)[: -len(".rt")]
            if name == "tests" and tested:
                continue
            to = f"{folder}/{crate}.rs" if name == "lib" else f"{folder}/{crate}/{name}.rs"
            with open(path, encoding="utf-8") as source, open(to, "w", encoding="utf-8") as it:
                it.write(plain(source.read(), crate, [*crates, "net_core"]))


if __name__ == "__main__":
    main()

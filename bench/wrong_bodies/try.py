#!/usr/bin/env python3
"""Tries the wrong bodies that the gate doesn't try, and prints one line for each.

Usage: bench/wrong_bodies/try.py [CRATE ..]      at the top of the repository; without names those of all crates here

The repository is copied to a temporary folder, as it stands in the working tree. There the edits of this folder take the
place of a crate's own, and `rt must-fail` tries them. The status is 0 where the prover refused each of them.
"""
import datetime
import glob
import os
import re
import shutil
import subprocess
import sys
import tempfile

HERE = "bench/wrong_bodies"
TRIED = re.compile(r"must-fail (\S+)/(\S+)\.edit: (.*)")
REFUSED = "refused, as it must be"


def git(*words):
    return subprocess.run(["git", *words], stdout=subprocess.PIPE, check=True, text=True).stdout


def commit():
    changed = git("status", "--porcelain", "--", "crates", "crates.txt")
    return git("rev-parse", "--short", "HEAD").strip() + (" and changes of the working tree" if changed else "")


def copy_repository(room):
    for path in git("ls-files", "-co", "--exclude-standard").splitlines():
        if os.path.isfile(path):
            os.makedirs(os.path.dirname(f"{room}/{path}"), exist_ok=True)
            shutil.copy2(path, f"{room}/{path}")


def take_edits(room, crate):
    """Puts this folder's edits of the crate in the place of its own, and returns their names."""
    shutil.rmtree(f"{room}/crates/{crate}/must-fail", ignore_errors=True)
    shutil.copytree(f"{room}/{HERE}/{crate}", f"{room}/crates/{crate}/must-fail")
    return {os.path.splitext(name)[0] for name in os.listdir(f"{room}/{HERE}/{crate}")}


def said_of(answer):
    """What `rt` said of an edit, without what it says of all that are refused."""
    if not answer.startswith(REFUSED):
        return answer
    return "refused" + answer[len(REFUSED):]


def try_crate(room, crate):
    """Prints a line for each edit of the crate, and returns how many there are, and how many were refused."""
    waiting = take_edits(room, crate)
    count, refused = len(waiting), 0
    ran = subprocess.run(["rt", "must-fail", crate], cwd=room, stdout=subprocess.PIPE, stderr=subprocess.STDOUT, text=True)
    for line in ran.stdout.splitlines():
        told = TRIED.search(line)
        if told and told[2] in waiting:
            waiting.discard(told[2])
            refused += told[3].startswith(REFUSED)
            print(f"{crate}/{told[2]}: {said_of(told[3])}", flush=True)
    for name in sorted(waiting):
        print(f"{crate}/{name}: not tried; rt must-fail ended with {ran.returncode}", flush=True)
    return count, refused


def main(names):
    crates = sorted(os.path.basename(path) for path in glob.glob(f"{HERE}/*") if os.path.isdir(path))
    unknown = [name for name in names if name not in crates]
    if unknown or not crates:
        sys.exit(f"no edits of {', '.join(unknown) or 'any crate'} below {HERE}; run this at the top of the repository")
    print(f"Commit {commit()}, {datetime.date.today().isoformat()}, edits of {', '.join(names) or 'all crates'}", flush=True)
    with tempfile.TemporaryDirectory(prefix="wrong-bodies-") as room:
        copy_repository(room)
        counts = [try_crate(room, crate) for crate in names or crates]
    tried, refused = (sum(column) for column in zip(*counts))
    print(f"{refused} of {tried} refused")
    return 0 if refused == tried else 1


if __name__ == "__main__":
    sys.exit(main(sys.argv[1:]))

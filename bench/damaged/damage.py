"""Damages a report of one plan byte by byte and checks each damaged text with the program.

Each byte is deleted, doubled, and replaced by each digit and each parenthesis. A damaged text is to be refused at a place, rejected, or accepted
where it says the same as before. It may also be accepted where the plan is the same, from its demands on: then the journal, the pool or the head
of the plan tell of another right way to it, or its certificate names another line of the pool with the same lengths. Each such word is listed.

Ends with status 1 where a text with another plan is accepted, one that says the same isn't, or the program ends in another way.
"""
import re
import subprocess
import sys
from collections import Counter, defaultdict

HEADER = b"?planner report; version: 1"
REFUSED = re.compile(rb"refused report ([a-z-]+) at ([0-9]+)\n")
REJECTED = re.compile(rb"rejected (?:outcome [0-9]+ )?([a-z-]+)(?: \S+)*\n")
REFUSED_STATUS, REJECTED_STATUS = 13, 11
AMOUNT = re.compile(rb"([0-9]+)(?:\.([0-9]+))?")


def tokens(text):
    """The tokens behind the header, without comments; none where the header differs."""
    line, _, rest = text.partition(b"\n")
    if line.rstrip(b" \t\r") != HEADER:
        return None
    found = []
    while match := re.match(rb"[ \t\r\n]*(#[^\n]*|[()]|[^ \t\r\n()]+)", rest):
        if not match[1].startswith(b"#"):
            found.append(match[1])
        rest = rest[match.end():]
    return found


def thousandths(word):
    """What an amount says, in thousandths; None for another word, or where it says more than thousandths."""
    match = AMOUNT.fullmatch(word)
    if not match or (match[2] or b"")[3:].strip(b"0"):
        return None
    return int(match[1]) * 1000 + int((match[2] or b"").ljust(3, b"0")[:3])


def is_same_word(old, new):
    """Whether two words say the same: amounts, which are written with a point, may have other zeros."""
    if old == new:
        return True
    return b"." in old and thousandths(new) is not None and thousandths(old) == thousandths(new)


def differences(old, new):
    """The places of the tokens that say something else; None where there are more or fewer."""
    if new is None or len(old) != len(new):
        return None
    return [at for at, pair in enumerate(zip(old, new)) if not is_same_word(*pair)]


def pool_lengths(words):
    """The lengths of each line of the pool, by the word of its index."""
    begins = [at for at, word in enumerate(words) if word == b"right" and words[at - 2] == b"state"]
    return {words[at - 3]: words[at + 3:words.index(b")", at)] for at in begins}


def has_same_plan(old, new, places):
    """Whether these differences leave the plan as it is."""
    lengths = pool_lengths(old)
    begin = old.index(b"DEMANDS")
    return all(at < begin or old[at - 1] == b"pool" and lengths.get(new[at]) == lengths[old[at]] for at in places)


def damaged(text):
    """Each change of one byte: its place, its name and the text."""
    for at, byte in enumerate(text):
        before, after = text[:at], text[at + 1:]
        yield at, "deleted", before + after
        yield at, "doubled", before + bytes([byte, byte]) + after
        for new in b"0123456789()":
            if new != byte:
                yield at, f"replaced by {chr(new)}", before + bytes([new]) + after


def judged(program, inputs, report, text):
    """What the program says of a damaged text, and whether it may say so of a text of this length."""
    with open(report, "wb") as out:
        out.write(text)
    run = subprocess.run([program, "check", *inputs, report], capture_output=True, timeout=60)
    if run.stderr:
        return "wrote an error", False
    if match := REFUSED.fullmatch(run.stdout):
        return f"refused {match[1].decode()}", run.returncode == REFUSED_STATUS and int(match[2]) <= len(text)
    if match := REJECTED.fullmatch(run.stdout):
        return f"rejected {match[1].decode()}", run.returncode == REJECTED_STATUS
    if run.stdout == b"accepted 1\n":
        return "accepted", run.returncode == 0
    return f"status {run.returncode}", False


def main():
    program, plan, damaged_report, *inputs = sys.argv[1:]
    with open(plan, "rb") as source:
        text = source.read()
    old = tokens(text)
    counts, wrong, elsewhere = Counter(), [], defaultdict(list)
    for at, change, new_text in damaged(text):
        said, is_fit = judged(program, inputs, damaged_report, new_text)
        new = tokens(new_text)
        other = differences(old, new)
        if said == "accepted" and other:
            is_fit = is_fit and has_same_plan(old, new, other)
            said = "accepted, with the same plan"
            for place in other:
                elsewhere[place].append(new[place].decode())
        else:
            is_fit = is_fit and (said == "accepted") == (other == [])
        counts[said] += 1
        if not is_fit:
            wrong.append(f"byte {at} {change}: {said}")
    print(f"{len(text)} bytes, {sum(counts.values())} damaged texts")
    for kind, count in sorted(counts.items()):
        print(f"{count:6} {kind}")
    for place, words in sorted(elsewhere.items()):
        before = b" ".join(old[max(place - 3, 0):place + 1]).decode()
        print(f"in place of the last word of '{before}': {' '.join(words)}")
    print(f"{len(wrong)} wrong answers")
    for line in wrong:
        print(line)
    sys.exit(1 if wrong else 0)


main()

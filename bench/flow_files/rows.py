#!/usr/bin/env python3
"""Rows of damaged files of flows for the tests of the readers.

Each row is what a file comes to and its body, as crates/reader_tests has them. The expected outcome comes from the reader below,
which was written from docs/FORMATS.md alone. The network is the triangle of the tests: nodes A, B and C, links AB, BC and AC with one
module of 10.00 each, the demands A and B, and the states none and f.
"""

HEADER = "?planner flows; version: 1\n"
LINKS = {"AB": ("A", "B"), "BC": ("B", "C"), "AC": ("A", "C")}
DEMANDS = ["A", "B"]
STATES = ["none", "f"]
WHOLE = ("MODULES ( AB ( 2 ) BC ( 2 ) AC ( 2 ) ) "
         "FLOWS ( none ( A AC A 12 A AB A 3 A BC B 3 A AC C 3 ) f ( A AC A 12 ) )")


class Fault(Exception):
    pass


def tokens(text):
    """Pairs of place and token, and the end."""
    found, at = [], len(HEADER)
    while at < len(text):
        c = text[at]
        if c in " \t\r\n":
            at += 1
        elif c == "#":
            while at < len(text) and text[at] != "\n":
                at += 1
        elif c in "()":
            found.append((at, c))
            at += 1
        else:
            start = at
            while at < len(text) and text[at] not in " \t\r\n()":
                at += 1
            found.append((start, text[start:at]))
    return found + [(len(text), None)]


class Reader:
    def __init__(self, text):
        self.tokens = tokens(text)
        self.at = 0

    def fail(self, kind):
        raise Fault(f"{self.tokens[self.at][0]} {kind}")

    def peek(self):
        return self.tokens[self.at][1]

    def section(self, wanted):
        if self.peek() is None and wanted is not None:
            self.fail("ended")
        if self.peek() != wanted:
            self.fail("section")
        self.at += 1

    def parenthesis(self, wanted):
        if self.peek() is None:
            self.fail("ended")
        if self.peek() != wanted:
            self.fail("token")
        self.at += 1

    def word(self):
        if self.peek() is None:
            self.fail("ended")
        if self.peek() in ("(", ")"):
            self.fail("token")
        return self.peek()

    def name(self, known):
        word = self.word()
        if len(word) > 255:
            self.fail("limit-name")
        if word not in known:
            self.fail("unknown-name")
        return word

    def count(self, sofar):
        word = self.word()
        if not word.isascii() or not word.isdigit() or (word[0] == "0" and word != "0"):
            self.fail("number-not")
        if int(word) >= 2 ** 126:
            self.fail("number-large")
        if sofar > 0 or int(word) >= 2 ** 44 or int(word) * 10000 >= 2 ** 46:
            self.fail("limit")
        self.at += 1

    def amount(self):
        word = self.word()
        whole, point, part = word.partition(".")
        digits = [whole] + ([part] if point else [])
        if any(not d.isascii() or not d.isdigit() for d in digits):
            self.fail("number-not")
        if part[3:].strip("0"):
            self.fail("number-fine")
        units = int(whole) * 1000 + int((part + "000")[:3])
        if units >= 2 ** 40:
            self.fail("number-large")
        if units == 0:
            self.fail("zero-flow")
        self.at += 1

    def counts(self):
        done = 0
        while self.peek() != ")":
            self.name([] if done == len(LINKS) else [list(LINKS)[done]])
            self.at += 1
            self.parenthesis("(")
            modules = 0
            while self.peek() != ")":
                self.count(modules)
                modules += 1
            if modules != 1:
                self.fail("limit")
            self.at += 1
            done += 1
        if done != len(LINKS):
            self.fail("limit")
        self.at += 1

    def flows(self):
        done = 0
        while self.peek() != ")":
            self.name([] if done == len(STATES) else [STATES[done]])
            self.at += 1
            self.parenthesis("(")
            first = 0
            while self.peek() != ")":
                self.name(DEMANDS)
                if first == 65536:
                    self.fail("limit")
                self.at += 1
                link = self.name(LINKS)
                self.at += 1
                self.name(LINKS[link])
                self.at += 1
                self.amount()
                first += 1
            self.at += 1
            if done == 0:
                self.first = first
            done += 1
        if done != len(STATES):
            self.fail("limit")
        self.at += 1

    def file(self):
        self.section("MODULES")
        self.section("(")
        self.counts()
        self.section("FLOWS")
        self.section("(")
        self.flows()
        self.section(None)
        return f"read {self.first}"


def outcome(body):
    try:
        return Reader(HEADER + body).file()
    except Fault as fault:
        return str(fault)


def damaged():
    words = WHOLE.split()
    for i in range(len(words)):
        yield words[:i] + words[i + 1:]
        yield words[:i + 1] + words[i:]
        for other in ["x", "(", ")", "0"]:
            if words[i] != other:
                yield words[:i] + [other] + words[i + 1:]


COUNTS = "MODULES ( AB ( 0 ) BC ( 0 ) AC ( 2 ) ) "
LIMITS = [
    "MODULES ( [255 x] ( 0 ) )",
    "MODULES ( [256 x] ( 0 ) )",
    "MODULES ( AB ( 01 ) )",
    "MODULES ( AB ( 1.0 ) )",
    "MODULES ( AB ( 100000000000000000000000000000000000001 ) )",
    "MODULES ( AB ( 17592186044416 ) )",
    "MODULES ( AB ( 7036874418 ) )",
    "MODULES ( AB ( 7036874417 0 ) )",
    "MODULES ( AB ( 7036874417 ) BC ( 0 ) AC ( 0 ) XY ( 0 ) )",
    "MODULES ( AB ( 7036874417 ) BC ( 0 ) AC ( 0 ) [256 x] ( 0 ) )",
    "MODULES ( AB ( 7036874417 ) BC ( 0 ) )",
    "MODULES ( AB ( 0 ) AC ( 0 ) )",
    COUNTS + "FLOWS ( none ( A AC A 1099511627.775 ) f ( ) )",
    COUNTS + "FLOWS ( none ( A AC A 1099511627.776 ) f ( ) )",
    COUNTS + "FLOWS ( none ( A AC A 0.001 A AC C 012.50000 ) f ( ) ) # the end",
    COUNTS + "FLOWS ( none ( A AC A 0.0001 ) f ( ) )",
    COUNTS + "FLOWS ( none ( A AC A 0.000 ) f ( ) )",
    COUNTS + "FLOWS ( none ( A AC A 1,5 ) f ( ) )",
    COUNTS + "FLOWS ( none ( A AC A .5 ) f ( ) )",
    COUNTS + "FLOWS ( none ( A AC B 1 ) f ( ) )",
    COUNTS + "FLOWS ( none ( [256 x] AC A 1 ) f ( ) )",
    COUNTS + "FLOWS ( none ( A [256 x] A 1 ) f ( ) )",
    COUNTS + "FLOWS ( none ( A AC [256 x] 1 ) f ( ) )",
    COUNTS + "FLOWS ( [256 x] ( A AC A 1 ) f ( ) )",
    COUNTS + "FLOWS ( f ( A AC A 1 ) none ( ) )",
    COUNTS + "FLOWS ( none ( ) )",
    COUNTS + "FLOWS ( none ( ) f ( ) g ( ) )",
    COUNTS + "FLOWS ( none ( ) f ( ) ) end",
    COUNTS + "FLOWS ( none ( [65536 A AC A 1 ]) f ( ) )",
    COUNTS + "FLOWS ( none ( [65536 A AC A 1 ]A AC A 1 ) f ( ) )",
    COUNTS + "FLOWS ( none ( [65536 A AC A 1 ]X AC A 1 ) f ( ) )",
]


def spread(body):
    """The body, in which `[3 a]` stands for `aaa`."""
    front, bracket, rest = body.partition("[")
    if not bracket:
        return body
    many, _, end = rest.partition("]")
    count, _, piece = many.partition(" ")
    return front + piece * int(count) + end


if __name__ == "__main__":
    for body in LIMITS:
        print(f"{outcome(spread(body))}|{body}")
    for words in [WHOLE.split(), *damaged()]:
        body = " ".join(words)
        print(f"{outcome(body)}|{body}")
    for i in range(len(WHOLE.split())):
        body = " ".join(WHOLE.split()[:i])
        print(f"{outcome(body)}|{body}")

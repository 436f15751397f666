#!/usr/bin/env python3
"""Reads the sheets of a report with Python's csv and its pictures with an XML parser, and compares them with the network and with the view.

Usage: read_back.py ZORGWINT NET REPORT [OPTION ..]      with the options of `zorgwint view`

Each sheet has a row of names, and every other row has as many fields. The links of the sheet of links are those of the view in their
order, with its numbers; states and flows are counted. The picture, and that of the first state with a failure, has a title for each link in
that order, with its name, and the names of all ends of links; the failed links are crossed out. Ends with status 0 where all agree.
"""
import csv
import io
import subprocess
import sys
import xml.etree.ElementTree

SVG = "{http://www.w3.org/2000/svg}"


def printed(words):
    return subprocess.run(words, check=True, capture_output=True).stdout.decode("utf-8", "surrogateescape")


def sheet(program, files, what):
    rows = list(csv.DictReader(io.StringIO(printed([program, "view", *files, "--csv", what]), newline="")))
    for row in rows:
        assert None not in row and None not in row.values(), row
    return rows


def view_rows(lines, first):
    """The rows of the table whose heads begin with this word, to the next empty line."""
    at = next(i for i, line in enumerate(lines) if line.split()[:1] == [first])
    rows = []
    for line in lines[at + 1:]:
        if not line.strip():
            return rows
        rows.append(line.split())
    return rows


def picture_bytes(program, files, links, state):
    """How many bytes the picture in a state has, which is a row of the sheet of states."""
    text = printed([program, "view", *files, "--svg", "--state", state["state"]])
    root = xml.etree.ElementTree.fromstring(text)
    drawn = [group for group in root.iter(f"{SVG}g") if group.find(f"{SVG}title") is not None]
    assert len(drawn) == len(links)
    for group, row in zip(drawn, links):
        assert group.find(f"{SVG}title").text.startswith(f"{row['link']}: {row['modules']}, cost {row['cost']}, {row['worst']} of "), row
        out = row["link"] in state["links_out"].split(" ")
        assert group.find(f"{SVG}text").text == ("\u00d7" if out else row["used_percent"]), row
        assert ("out" in group.find(f"{SVG}path").get("class").split(" ")) == out, row
    names = [text.text for group in root.iter(f"{SVG}g") if group.get("class") == "n" for text in group]
    assert len(names) == len(set(names)) == len(list(root.iter(f"{SVG}circle")))
    assert set(names) >= {row[end] for row in links for end in ("from", "to")}
    return len(text.encode("utf-8", "surrogateescape"))


def main():
    program, *files = sys.argv[1:]
    lines = printed([program, "view", *files]).split("\n")
    links, states, flows = (sheet(program, files, what) for what in ("links", "states", "flows"))
    shown = [row for row in view_rows(lines, "Link") if row[0] != "total"]
    assert [row["link"] for row in links] == [row[0] for row in shown]
    for row, want in zip(links, shown):
        assert [row["cost"], row["state"], row["used_percent"], row["worst"], row["normal"], row["capacity"]] == [
            want[-1], want[-2], want[-4], want[-5], want[-6], want[-7]], (row, want)
    assert [row["state"] for row in states] == [row[0] for row in view_rows(lines, "Failure")]
    for row in flows:
        nodes, path = row["nodes"].split(" "), row["links"].split(" ")
        assert len(nodes) == len(path) + 1 and nodes[0] == row["from"] and nodes[-1] == row["to"], row
    sizes = [picture_bytes(program, files, links, state) for state in states[:2]]
    print(len(links), "links,", len(states), "states,", len(flows), "flows, pictures of", " and ".join(map(str, sizes)), "bytes")


main()

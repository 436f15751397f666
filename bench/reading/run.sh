#!/usr/bin/env bash
# Files of 16 MiB: skipped nearly whole, refused at their end, and full of names to look up. Prints a table.
set -eu
cd "$(dirname "$0")/../.."
room=$(mktemp -d)
trap 'rm -r "$room"' EXIT
. bench/table.sh
python3 bench/reading/generate.py skipped >"$room/skipped.txt"
python3 bench/reading/generate.py parentheses >"$room/parentheses.txt"
python3 bench/reading/generate.py links >"$room/links.txt"
python3 bench/reading/generate.py lines >"$room/lines.txt"
heading
measure 'comments and META' "$program" plan "$room/skipped.txt"
measure 'opening parentheses' "$program" plan "$room/parentheses.txt"
measure 'paths of many links' "$program" plan "$room/links.txt"
measure 'many lines of paths' "$program" plan "$room/lines.txt"

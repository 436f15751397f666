#!/usr/bin/env bash
# Refuses each allocation of a plan, a session, a check, an import and a sample in turn. Give the program first.
set -euo pipefail
here=$(cd "$(dirname "$0")" && pwd)
program=$(realpath "$1")
data="$here/../../crates/planner_top/data"
towns="$here/../sessions/towns.txt"
work=$(mktemp -d)
trap 'rm -r "$work"' EXIT
cc -O2 -shared -fPIC -o "$work/refuse.so" "$here/refuse.c" -ldl
each() { python3 "$here/refuse.py" "$program" "$work/refuse.so" "$work" "$@"; }
"$program" plan "$data/triangle.txt" "$data/model.txt" > "$work/report.txt"
each plan "$data/triangle.txt"
each plan "$data/triangle.txt" "$data/model.txt"
each plan "$data/broken.txt"
each plan "$towns" "$data/model.txt"
each session "$data/triangle.txt" "$data/model.txt" default "$data/script.txt"
each check "$data/triangle.txt" "$data/model.txt" default "$work/report.txt"
each import "$data/triangle.txt" default default "$data/flows.txt"
each sample 7 6

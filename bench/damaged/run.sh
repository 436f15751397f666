#!/usr/bin/env bash
# Damages the triangle's report byte by byte, without failures and with every single-link failure, and checks each damaged text. Give the program
# first.
set -euo pipefail
here=$(cd "$(dirname "$0")" && pwd)
program=$1
data="$here/../../crates/planner_top/data"
work=$(mktemp -d)
trap 'rm -r "$work"' EXIT
for model in default "$data/model.txt"; do
  "$program" plan "$data/triangle.txt" "$model" > "$work/report.txt"
  python3 "$here/damage.py" "$program" "$work/report.txt" "$work/damaged.txt" "$data/triangle.txt" "$model" default
done

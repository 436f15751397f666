#!/usr/bin/env bash
# Runs a session of 1,000 commands and checks its report, and then eight damaged journals. Give the program first.
set -euo pipefail
here=$(cd "$(dirname "$0")" && pwd)
program=$1
model="$here/../../crates/planner_top/data/model.txt"
work=$(mktemp -d)
python3 "$here/generate.py" > "$work/script.txt"
/usr/bin/time -f "session: %U s of processor time, %M kB" "$program" session "$here/towns.txt" "$model" default "$work/script.txt" > "$work/report.txt"
echo "report: $(wc -c < "$work/report.txt") bytes, $(grep -c ' accepted ' "$work/report.txt") accepted edits, $(grep -o 'PLAN (' "$work/report.txt" | wc -l) plans"
/usr/bin/time -f "check: %U s of processor time, %M kB" "$program" check "$here/towns.txt" "$model" default "$work/report.txt"
damage() {
  sed "$2" "$work/report.txt" > "$work/damaged.txt"
  cmp -s "$work/report.txt" "$work/damaged.txt" && echo "$1: nothing changed" && return
  echo "$1: $("$program" check "$here/towns.txt" "$model" default "$work/damaged.txt" || true)"
}
damage "another reply" '0,/unknown-demand/s//known-demand/'
damage "another version" '0,/accepted 3 /s//accepted 4 /'
damage "another position" '0,/^( 7 /s//( 8 /'
damage "another index" '0,/ cut 1 )/s// cut 2 )/'
damage "another need" '0,/set D1 \([0-9]*\)\./s//set D1 1\1./'
damage "another right side" '0,/ right \([0-9]*\) /s// right 1\1 /'
damage "another caller" '0,/caller 9/s//caller 8/; 0,/( 1 caller [0-9]/s//( 1 caller 9/'
damage "another cost" '0,/^cost \([0-9]\)/s//cost 1\1/'
rm -r "$work"

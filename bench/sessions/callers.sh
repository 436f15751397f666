#!/usr/bin/env bash
# Runs the session of 1,000 commands ten times and checks each report, and then times edits that several callers share. Give the program first.
set -euo pipefail
here=$(cd "$(dirname "$0")" && pwd)
program=$1
model="$here/../../crates/planner_top/data/model.txt"
work=$(mktemp -d)
python3 "$here/generate.py" > "$work/script.txt"
for run in 1 2 3 4 5 6 7 8 9 10; do
  "$program" session "$here/towns.txt" "$model" default "$work/script.txt" > "$work/report$run.txt"
  "$program" check "$here/towns.txt" "$model" default "$work/report$run.txt"
done | sort | uniq -c
echo "different reports: $(md5sum "$work"/report*.txt | cut -d ' ' -f 1 | sort -u | wc -l)"
python3 "$here/callers.py" "$program" "$here/towns.txt" "$model" "$work/edits.txt"
rm -r "$work"

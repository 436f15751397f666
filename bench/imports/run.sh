#!/usr/bin/env bash
# imports solutions of glpsol with the program that is named: the triangle, and the sample of seed 7 with 8 nodes
set -eu
program=$(realpath "$1")
here=$(cd "$(dirname "$0")" && pwd)
folder=$(mktemp -d)
trap 'rm -rf "$folder"' EXIT
cd "$folder"
cp "$here/../../crates/planner_top/data/triangle.txt" "$here/../../crates/planner_top/data/model.txt" .
python3 "$here/../sample/sample.py" 7 8 file >sample.txt
for net in triangle sample; do
  "$here/solve.py" $net.txt single 60 >flows.txt
  "$program" import $net.txt model.txt default flows.txt >report.txt
  echo "$net: import $(grep -ao '^cost [0-9.]* bound [0-9.]*' report.txt), $("$program" check $net.txt model.txt default report.txt)"
  echo "$net: plan $("$program" plan $net.txt model.txt | grep -ao '^cost [0-9.]* bound [0-9.]*')"
done

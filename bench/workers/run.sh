#!/usr/bin/env bash
# Plans of sample networks of 20 and 30 nodes and of the planar network of 50 nodes, with every single-link failure, by a program that
# may use one, two and four processors. Prints a table with the least time of RUNS runs each (1 where nothing else is said).
#
#   bench/workers/run.sh [PROGRAM]
set -eu
cd "$(dirname "$0")/../.."
room=$(mktemp -d)
trap 'rm -r "$room"' EXIT
. bench/table.sh
program=${1:-$program}
python3 bench/plans/planar.py >"$room/planar.txt"
model=$PWD/crates/planner_top/data/model.txt

# seconds PROCESSORS WORD ..: the least time of a run of the program on these processors.
seconds() {
  local processors=$1 best=
  shift
  for _ in $(seq "${RUNS:-1}"); do
    /usr/bin/time -q -f '%e' -o "$room/time" taskset -c "$processors" "$program" "$@" >"$room/output"
    best=$(printf '%s\n%s\n' "$best" "$(cat "$room/time")" | grep . | sort -n | head -1)
  done
  printf '%s' "$best"
}

# row NAME WORD ..: the times on one, two and four processors, and the raw value, which doesn't depend on them.
row() {
  local name=$1 one two four
  shift
  one=$(seconds 0 "$@")
  cp "$room/output" "$room/alone"
  two=$(seconds 0,1 "$@")
  cmp -s "$room/output" "$room/alone" || name="$name (other output on two)"
  four=$(seconds 0-3 "$@")
  cmp -s "$room/output" "$room/alone" || name="$name (other output on four)"
  printf '| %s | %s | %s | %s | `%s` |\n' "$name" "$one" "$two" "$four" "$(grep -o 'raw [0-9]* [0-9]*' "$room/output" | head -1)"
}

printf 'Processor: %s, %s of them; commit %s\n\n' \
  "$(sed -n 's/^model name[^:]*: //p' /proc/cpuinfo | head -1)" "$(nproc)" "$(git rev-parse --short HEAD)"
printf '| Plan | Seconds on 1 processor | on 2 | on 4 | Raw value |\n|---|---|---|---|---|\n'
for nodes in 20 30; do
  for seed in 1 2 3; do
    row "sample $seed $nodes" sample "$seed" "$nodes"
  done
done
row 'planar, 50 nodes' plan "$room/planar.txt" "$model"

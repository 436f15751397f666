#!/usr/bin/env bash
# Twenty plans of four callers at once on the network of `sample SEED 12`, with every single-link failure: how many are tight, their raw
# values beside that of the sample alone, and what `check` says of the report. Give the program first.
set -eu
program=$(realpath "$1")
cd "$(dirname "$0")/../.."
room=$(mktemp -d)
trap 'rm -r "$room"' EXIT
for seed in 7 1 2 3; do
  python3 bench/sample/sample.py "$seed" 12 | awk '
    BEGIN { print "?SNDlib native format; type: network; version: 1.0"; printf "NODES (" ; for (i = 0; i < 12; i++) printf " n%d", i; print " )\nLINKS (" }
    /^l/ { gsub(",", ""); print $1, "(", $2, $3, ") 0 0 0 0 (", $4, $6, $7, $9, ")" }
    /^d/ { if (!seen++) print ")\nDEMANDS ("; print $1, "(", $2, $3, ") 1", $4, "UNLIMITED" }
    END { print ")" }' >"$room/network"
  { echo '?planner script; version: 1'; for k in $(seq 0 19); do echo "caller $((k % 4 + 1)) plan"; done; } >"$room/script"
  "$program" session "$room/network" crates/planner_top/data/model.txt default "$room/script" >"$room/report"
  printf 'sample %s 12: %s tight; raw %s, alone %s; check: %s\n' "$seed" "$(grep -c '^tight' "$room/report")" \
    "$(grep -o 'raw [0-9]* [0-9]*' "$room/report" | sort | uniq -c | awk '{ print $3 "/" $4 " (" $1 ")" }')" \
    "$("$program" sample "$seed" 12 | awk '/^raw/ { print $2 "/" $3 }')" \
    "$("$program" check "$room/network" crates/planner_top/data/model.txt default "$room/report")"
done

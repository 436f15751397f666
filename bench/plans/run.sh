#!/usr/bin/env bash
# Plans of the largest network file, without failures and with every single-link failure, and of one whose links need up to
# 100,000 steps of their modules' capacities. Prints a table.
set -eu
cd "$(dirname "$0")/../.."
room=$(mktemp -d)
trap 'rm -r "$room"' EXIT
. bench/table.sh
python3 bench/plans/generate.py >"$room/network.txt"
heading
measure 'without failures' "$program" plan "$room/network.txt"
measure 'every single-link failure' "$program" plan "$room/network.txt" crates/planner_top/data/model.txt
python3 bench/plans/generate.py 128 256 16 2048 30 >"$room/network.txt"
measure 'every single-link failure, many steps' "$program" plan "$room/network.txt" crates/planner_top/data/model.txt

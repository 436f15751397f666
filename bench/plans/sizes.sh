#!/usr/bin/env bash
# Plans of networks of SNDlib's sizes with every single-link failure, seeds 1 to 3, and of large sample networks. Prints a table.
# Usage: sizes.sh PROGRAM      the planner, as `rt run` leaves it
set -eu
program=$(realpath "$1")
cd "$(dirname "$0")/../.."
room=$(mktemp -d)
trap 'rm -r "$room"' EXIT
TIMEFORMAT='%U'
# A row: the name, the processor seconds, and the quality, or how it ended.
row() {
    name=$1
    shift
    { time timeout 300 "$@" >"$room/report" || true; } 2>"$room/time"
    echo "| $name | $(tail -1 "$room/time") | $(grep -a -o -m 1 '^tight\|^loose\|^quality [a-z]*' "$room/report" || echo no plan) |"
}
echo '| Run | Processor seconds | Quality |'
echo '|---|---|---|'
for size in polska newyork france janos-us norway nobel-eu cost266 germany50 pioro40 zib54 ta2; do
    for seed in 1 2 3; do
        python3 bench/plans/sizes.py $size $seed >"$room/network"
        row "$size $seed" "$program" plan "$room/network" crates/planner_top/data/model.txt
    done
done
for sample in '1 30' '2 30' '3 30' '1 40' '2 40' '3 40' '4 40' '5 40'; do
    row "sample $sample" "$program" sample $sample
done

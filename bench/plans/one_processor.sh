#!/usr/bin/env bash
# User seconds of plans on one processor, beside a loop of bench/rounds built from an earlier commit. Prints a table.
# Usage: one_processor.sh PROGRAM LOOP NETWORK:SEED|sample:SEED.NODES ..
# PROGRAM is the planner, as `rt run` leaves it; LOOP the program that bench/rounds/run.sh builds, in a clone of the earlier commit, with the
# end of the present bench/rounds/main.rs, and takes a network's file.
set -eu
program=$(realpath "$1")
loop=$(realpath "$2")
shift 2
cd "$(dirname "$0")/../.."
room=$(mktemp -d)
trap 'rm -r "$room"' EXIT
TIMEFORMAT='%U'
echo '| Network | Program, s | Earlier loop, s |'
echo '|---|---|---|'
for name in "$@"; do
    case $name in
        sample:*) seed=${name#sample:}; python3 bench/sample/sample.py "${seed%.*}" "${seed#*.}" file >"$room/network" ;;
        *) python3 bench/plans/sizes.py "${name%:*}" "${name#*:}" >"$room/network" ;;
    esac
    { time taskset -c 0 "$program" plan "$room/network" crates/planner_top/data/model.txt >"$room/report"; } 2>"$room/now"
    { time taskset -c 0 "$loop" "$room/network" >"$room/rows"; } 2>"$room/before"
    echo "| $name | $(tail -1 "$room/now") | $(tail -1 "$room/before") |"
done

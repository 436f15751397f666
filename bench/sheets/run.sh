#!/usr/bin/env bash
# Reads the sheets and pictures of two networks back: the largest one, and one with names of every printable byte.
# Usage: run.sh PROGRAM      `zorgwint`, as `rt run` leaves it
set -eu
program=$(realpath "$1")
cd "$(dirname "$0")"
room=$(mktemp -d)
trap 'rm -r "$room"' EXIT
for which in largest printable; do
    python3 networks.py $which "$room/network" "$room/report"
    echo "$which: $(python3 read_back.py "$program" "$room/network" "$room/report" --survive links)"
done

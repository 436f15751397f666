#!/usr/bin/env bash
# Plans of sample networks with every single-link failure by the program: seeds 1 to 6 with 6 to 12 nodes, and 1 to 3 with 16 and 20.
# Prints a table with the last line, which says whether the plan is tight.
set -eu
cd "$(dirname "$0")/../.."
room=$(mktemp -d)
trap 'rm -r "$room"' EXIT
. bench/table.sh
heading
for nodes in 6 8 10 12; do
  for seed in 1 2 3 4 5 6; do
    measure "sample $seed $nodes" "$program" sample "$seed" "$nodes"
  done
done
for nodes in 16 20; do
  for seed in 1 2 3; do
    measure "sample $seed $nodes" "$program" sample "$seed" "$nodes"
  done
done

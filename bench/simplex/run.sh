#!/usr/bin/env bash
# The code of `simplex_core` without its contracts, and `glpsol --exact` if there is one, on programs of 50 and 200 rows.
set -eu
cd "$(dirname "$0")/../.."
room=$(mktemp -d)
trap 'rm -r "$room"' EXIT
python3 bench/plain/plain.py "$room" checked_fraction simplex_core
cp bench/trim/net_core.rs "$room"
grep -lE '\bVec\b' "$room"/*/*.rs | xargs --no-run-if-empty sed -i '1i use crate::net_core::Vec;'
cp bench/simplex/main.rs "$room"
rustc -O --edition 2024 -o "$room/simplex" "$room/main.rs"
for rows in 50 200; do
  python3 bench/simplex/generate.py "$rows" >"$room/program"
  printf '%s rows, solve: ' "$rows"
  "$room/simplex" "$room/program"
  if command -v glpsol >/dev/null; then
    python3 bench/simplex/generate.py "$rows" lp >"$room/program.lp"
    glpsol --exact --lp "$room/program.lp" -o "$room/solution" | tail -8
    grep '^Objective' "$room/solution"
  fi
done

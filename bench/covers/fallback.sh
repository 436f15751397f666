#!/usr/bin/env bash
# The code of the fallback plan without its contracts, as the working tree has it and as commits had it, on the largest network file
# with every single-link failure. Usage: fallback.sh [COMMIT ..]
set -eu
cd "$(dirname "$0")/../.."
room=$(mktemp -d)
trap 'rm -r "$room"' EXIT
here=$PWD

# Builds the crates under a folder into a program.
build() {
  mkdir "$room/$2"
  (cd "$1" && python3 "$here/bench/plain/plain.py" "$room/$2" checked_fraction module_prices short_paths module_choice)
  # Lists are those of `routing`; networks and states are the covers' own.
  sed '/^\/\/\/ A link, by its ends/,/^pub struct Demand/{/^pub struct Demand/!d}' bench/routing/net_core.rs >"$room/$2/net_core.rs"
  cat bench/covers/net_core.rs >>"$room/$2/net_core.rs"
  cp bench/covers/fallback.rs "$room/$2/main.rs"
  grep -lE '\bVec\b' "$room/$2"/*/*.rs | xargs sed -i '1i use crate::net_core::Vec;'
  rustc -O --edition 2024 -o "$room/$2/fallback" "$room/$2/main.rs"
}

build . now
for commit in "$@"; do
  mkdir "$room/tree-$commit"
  git archive "$commit" crates | tar -x -C "$room/tree-$commit"
  build "$room/tree-$commit" "$commit"
done
for capacity in 10000 30; do
  python3 bench/plans/generate.py 128 256 16 2048 "$capacity" >"$room/network"
  for code in "$@" now; do
    echo "modules of $capacity thousandths, $code: $("$room/$code/fallback" "$room/network")"
  done
done

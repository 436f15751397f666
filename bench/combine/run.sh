#!/usr/bin/env bash
# The code of `combine` without its contracts, beside the same loop written plainly. Prints three runs.
set -eu
cd "$(dirname "$0")/../.."
room=$(mktemp -d)
trap 'rm -r "$room"' EXIT
python3 bench/plain/plain.py "$room" checked_fraction
cp bench/trim/net_core.rs "$room"
grep -lE '\bVec\b' "$room"/*/*.rs | xargs --no-run-if-empty sed -i '1i use crate::net_core::Vec;'
cp bench/combine/combine.rs "$room"
rustc -O --edition 2024 -o "$room/combine" "$room/combine.rs"
for _ in 1 2 3; do "$room/combine"; done

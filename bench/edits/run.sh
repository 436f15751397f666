#!/usr/bin/env bash
# The code of `demand_book` without its contracts: 1,000 edits of a book of 2,048 demands.
set -eu
cd "$(dirname "$0")/../.."
room=$(mktemp -d)
trap 'rm -r "$room"' EXIT
python3 bench/plain/plain.py "$room" demand_book
cat bench/edits/names.rs >>"$room/net_core.rs"
cp bench/edits/edits.rs "$room"
rustc -O --edition 2024 -o "$room/edits" "$room/edits.rs"
"$room/edits"

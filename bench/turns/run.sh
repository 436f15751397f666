#!/usr/bin/env bash
# Turns at a desk, by a proved program that `rt run` builds outside the repository, beside std's mutex in the same program and in plain Rust.
set -eu
cd "$(dirname "$0")/../.."
room=$(mktemp -d)
trap 'rm -r "$room"' EXIT
program=$room/crates/turns
mkdir -p "$program/src" "$program/proofs/note_often"
cp HANDLES "$room"
cp -r crates/net_core crates/turn_lock "$room/crates"
grep -E '^(net_core|turn_lock):' crates.txt >"$room/crates.txt"
echo 'turns: net_core turn_lock' >>"$room/crates.txt"
cp bench/turns/main.txt "$program/src/main.rt"
cp bench/turns/invariants.txt "$program/proofs/note_often/Invariants.antt"
(cd "$program" && rt run >/dev/null 2>&1)
rustc -O --edition 2024 -o "$room/mutex" bench/turns/mutex.rs
("$program/out/turns" && "$room/mutex") | python3 bench/turns/table.py

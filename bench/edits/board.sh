#!/usr/bin/env bash
# The code of `cut_pool` without its contracts: 1,000 edits of a board with a full pool.
# Usage: bench/edits/board.sh
set -eu
cd "$(dirname "$0")/../.."
room=$(mktemp -d)
trap 'rm -r "$room"' EXIT
python3 bench/plain/plain.py "$room" cut_pool demand_book metric_cut short_paths checked_fraction
rm "$room/metric_cut.rs"
sed -e 's/List<()>/List<Name>/' -e 's/^pub struct Demand {/&\n    pub name: Name,/' bench/rounds/net_core.rs >"$room/net_core.rs"
cat bench/edits/board_core.rs >>"$room/net_core.rs"
cp bench/edits/board.rs "$room"
sed -i -e 's/use std::snapshot::Snapshot\( as Remembered\)\?;/use crate::net_core::Remembered;/' \
  -e 's/Snapshot<Vec<Entry>>/Remembered<Vec<Entry>>/' -e 's/Snapshot::of(/Remembered::of(/' \
  -e 's/use turn_lock::Chronicle;/use crate::net_core::Chronicle;/' "$room"/cut_pool/*.rs
grep -lE '\bVec\b' "$room"/*/*.rs | xargs sed -i '1i use crate::net_core::Vec;'
rustc -O --edition 2024 -o "$room/board" "$room/board.rs"
echo '| Nodes | Links | Demands | Followed, ms | Summed anew, ms |'
echo '|---|---|---|---|---|'
"$room/board" 20 40 190
"$room/board" 128 256 2048

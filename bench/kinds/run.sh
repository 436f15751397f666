#!/usr/bin/env bash
# What table lines add to the value of cuts at the root, with every single-link failure, by the code of the crates without its contracts.
# Usage: bench/kinds/run.sh OUT SEED NODES LINKS KINDS      writes OUT.cuts.lp and OUT.tables.lp for other solvers
set -eu
cd "$(dirname "$0")/../.."
room=$(mktemp -d)
trap 'rm -r "$room"' EXIT
python3 bench/plain/plain.py "$room" checked_fraction simplex_core short_paths key_rows key_paths module_prices metric_cut greedy_router flow_router node_sets master_bound separator flow_mending row_cuts warm_basis warm_routing plan_types module_choice share_covers able_counts trim_plan plan_swaps plan_checker line_check table_maker tree_check outside_io
rm "$room/metric_cut.rs" "$room/separator.rs" "$room/plan_types.rs" "$room/plan_checker.rs" "$room/outside_io.rs"
# The planning by rounds is that of ../prove.
sed '/^fn splits/,$d; /^mod \(box_program\|tree_boxes\|tree_search\|line_maker\|table_maker\);/d; /^use tree_search::/d; /^use tree_check::/d' bench/prove/main.rs >"$room/main.rs"
sed -i 's/^mod line_check;/mod line_check;\nmod table_maker;/' "$room/main.rs"
cat bench/kinds/root.rs >>"$room/main.rs"
cp bench/trim/net_core.rs "$room"
grep -lE '\bVec\b' "$room"/*/*.rs | xargs sed -i '1i use crate::net_core::Vec;'
sed -i 's/\.sort_by_key(alloc, \(.*\))?;/.sort_by_key(\1);/' "$room"/*/*.rs
sed -i 's/use std::collections::VecDeque;/use crate::VecDeque;/' "$room/tree_check/walk.rs"
rustc -O --edition 2024 -o "$room/root" "$room/main.rs" 2>"$room/warnings" || { cat "$room/warnings"; exit 1; }
out=$1
shift
python3 bench/kinds/kinds.py "$@" >"$room/network"
"$room/root" "$room/network" "$out"

#!/usr/bin/env bash
# Trims and swaps of plans with every single-link failure, by the code of the crates without its contracts.
# Usage: bench/trim/run.sh [NODES ..]      seeds 1 to 10 for each number of nodes; without one, the planar network of 50 nodes
set -eu
cd "$(dirname "$0")/../.."
room=$(mktemp -d)
trap 'rm -r "$room"' EXIT
python3 bench/plain/plain.py "$room" checked_fraction simplex_core short_paths key_rows key_paths module_prices metric_cut greedy_router flow_router node_sets master_bound separator flow_mending row_cuts warm_basis warm_routing plan_types module_choice share_covers able_counts trim_plan plan_swaps
rm "$room/metric_cut.rs" "$room/separator.rs" "$room/plan_types.rs"
cp bench/trim/main.rs bench/trim/net_core.rs "$room"
grep -lE '\bVec\b' "$room"/*/*.rs | xargs sed -i '1i use crate::net_core::Vec;'
sed -i 's/\.sort_by_key(alloc, \(.*\))?;/.sort_by_key(\1);/' "$room/trim_plan/dearest.rs"
python3 bench/trim/counted.py "$room"
rustc -O --edition 2024 -o "$room/trim" "$room/main.rs" 2>"$room/warnings" || { cat "$room/warnings"; exit 1; }
networks=()
for nodes in "$@"; do
  for seed in 1 2 3 4 5 6 7 8 9 10; do
    python3 bench/sample/sample.py "$seed" "$nodes" file >"$room/$seed.$nodes"
    networks+=("$seed.$nodes" "$room/$seed.$nodes")
  done
done
if [ $# -eq 0 ]; then
  python3 bench/plans/planar.py >"$room/planar"
  networks=(planar "$room/planar")
fi
"$room/trim" "${networks[@]}" | python3 bench/trim/means.py

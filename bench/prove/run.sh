#!/usr/bin/env bash
# Branch trees of plans with every single-link failure, by the code of the crates without its contracts.
# Usage: bench/prove/run.sh LIMIT SEED.NODES ..            as in run.sh 9999 1.4 2.4
#        bench/prove/run.sh lines LIMIT SEED.NODES ..      by lines
#        bench/prove/run.sh lines LIMIT FILE ..            of networks in files, as of ../kinds/kinds.py
#        bench/prove/run.sh model SEED.NODES               the integer program over the handed-in cuts, in the LP format
set -eu
cd "$(dirname "$0")/../.."
room=$(mktemp -d)
trap 'rm -r "$room"' EXIT
python3 bench/plain/plain.py "$room" checked_fraction simplex_core short_paths key_rows key_paths module_prices metric_cut greedy_router flow_router node_sets master_bound separator flow_mending row_cuts warm_basis warm_routing plan_types module_choice share_covers able_counts trim_plan plan_swaps plan_checker line_check table_maker tree_check box_program line_maker tree_boxes tree_search outside_io
rm "$room/metric_cut.rs" "$room/separator.rs" "$room/plan_types.rs" "$room/plan_checker.rs" "$room/outside_io.rs"
cp bench/prove/main.rs "$room"
cp bench/trim/net_core.rs "$room"
grep -lE '\bVec\b' "$room"/*/*.rs | xargs sed -i '1i use crate::net_core::Vec;'
sed -i 's/\.sort_by_key(alloc, \(.*\))?;/.sort_by_key(\1);/' "$room"/*/*.rs
sed -i 's/use std::collections::VecDeque;/use crate::VecDeque;/' "$room/tree_check/walk.rs"
rustc -O --edition 2024 -o "$room/prove" "$room/main.rs" 2>"$room/warnings" || { cat "$room/warnings"; exit 1; }
if [ "$1" = model ]; then
  python3 bench/sample/sample.py "${2%.*}" "${2#*.}" file >"$room/$2"
  "$room/prove" model "$room/$2"
  exit
fi
how=()
if [ "$1" = lines ]; then how=(lines); shift; fi
limit=$1
shift
networks=()
for one in "$@"; do
  if [ -f "$one" ]; then networks+=("$(basename "$one")" "$one"); continue; fi
  python3 bench/sample/sample.py "${one%.*}" "${one#*.}" file >"$room/$one"
  networks+=("$one" "$room/$one")
done
"$room/prove" "${how[@]}" "$limit" "${networks[@]}"

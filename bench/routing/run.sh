#!/usr/bin/env bash
# The code of `route_state` without its contracts on states of sample networks, and `glpsol --exact` and `esolver`, if they are there, on
# the same programs written out with the columns that entered.
set -eu
cd "$(dirname "$0")/../.."
room=$(mktemp -d)
trap 'rm -r "$room"' EXIT
python3 bench/plain/plain.py "$room" checked_fraction simplex_core short_paths key_rows key_paths metric_cut greedy_router flow_router
rm "$room/metric_cut.rs"
cp bench/routing/main.rs bench/trim/net_core.rs "$room"
grep -lE '\bVec\b' "$room"/*/*.rs | xargs sed -i '1i use crate::net_core::Vec;'
# Each search, each turn and each column that enters is counted, and the time of searches is taken.
count() {
  grep -q "$2" "$room/$1"
  sed -i "/$2/,/^ *{/s/^\( *\){/&\n\1    crate::counts::$3;/" "$room/$1"
}
count short_paths/dijkstra.rs 'pub fn run(' 'search(); let _timer = crate::counts::Timer::new()'
count key_paths/entering.rs 'pub(crate) fn enter(' 'turn(\&name)'
rustc -O --edition 2024 -o "$room/routing" "$room/main.rs"
for nodes in 12 20 30 40; do
  python3 bench/sample/sample.py 1 "$nodes" >"$room/network"
  "$room/routing" "$room/network" "$room"
  python3 bench/routing/exact.py "$room" "$room/$nodes"-*.lp
done

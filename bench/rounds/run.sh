#!/usr/bin/env bash
# The rounds of plannings with every single-link failure, by the code of the crates without its contracts.
# Usage: bench/rounds/run.sh SEED.NODES|NAME ..      sample networks, and networks of the sizes in bench/plans/sizes.py with seed 1;
# each with all states asked in each round, with rounds that stop early, with sets of nodes that grow once for all states of a round too, with
# certificates from the basis of the round before as well, and with room for the sets
set -eu
cd "$(dirname "$0")/../.."
room=$(mktemp -d)
trap 'rm -r "$room"' EXIT
python3 bench/plain/plain.py "$room" checked_fraction simplex_core short_paths key_rows key_paths module_prices metric_cut greedy_router flow_router node_sets master_bound length_master flow_mending row_cuts warm_basis warm_routing separator plan_types module_choice share_covers
rm "$room/metric_cut.rs" "$room/separator.rs" "$room/plan_types.rs"
cp bench/rounds/main.rs bench/trim/net_core.rs "$room"
sed -i 's/^mod /pub mod /' "$room/share_covers.rs"
grep -lE '\bVec\b' "$room"/*/*.rs | xargs sed -i '1i use crate::net_core::Vec;'
rustc -O --edition 2024 -o "$room/rounds" "$room/main.rs"
echo '| Network | Way | Nodes | Links | Demands | Raw value | Rounds | Cuts (opening) | Bits of the scale | States asked | Wide certificates | Certificates, ms | States, ms | Covers, ms |'
echo '|---|---|---|---|---|---|---|---|---|---|---|---|---|---|'
for name in "$@"; do
  case $name in
    *.*) python3 bench/sample/sample.py "${name%.*}" "${name#*.}" file >"$room/network" ;;
    *) python3 bench/plans/sizes.py "$name" >"$room/network" ;;
  esac
  for way in ${WAYS:-each grown round kept room}; do
    echo "| $name | $way $("$room/rounds" "$room/network" $way)"
  done
done

#!/usr/bin/env bash
# The code of `read_report`, `write_report` and `check_report` without its contracts, on large reports of plans without fault.
set -eu
cd "$(dirname "$0")/../.."
room=$(mktemp -d)
trap 'rm -r "$room"' EXIT
python3 bench/plain/plain.py "$room" net_core snd_tokens text_kit plan_types plan_report report_words report_parts report_reader \
  sndlib_reader model_reader checked_fraction demand_book short_paths failure_states metric_cut module_prices module_choice \
  plan_checker report_checker
cp bench/report/main.rs bench/report/indexmap.rs bench/report/itoa.rs "$room"
# The lists and the allocator are Rust's own.
cp bench/report/list.rs "$room/net_core"
echo 'pub use list::{Global, Vec, filled};' >>"$room/net_core.rs"
grep -lE '\bVec\b' "$room"/*/*.rs | grep -v net_core/list.rs | xargs sed -i '1i use crate::net_core::Vec;'
sed -i -E 's/^use (indexmap|itoa)::/use crate::\1::/' "$room"/*/*.rs
rustc -O --edition 2024 -o "$room/measure" "$room/main.rs"
printf 'Processor: %s, %s of them; commit %s\n' \
  "$(sed -n 's/^model name[^:]*: //p' /proc/cpuinfo | head -1)" "$(nproc)" "$(git rev-parse --short HEAD)"
printf '\n| Report | MB | Read, s | MB (times the file) | Write, s | MB | Check, s | MB |\n|---|---|---|---|---|---|---|---|\n'
for kind in pool:1024 pool:4096 states large short journal; do
  python3 bench/report/generate.py "$room" ${kind//:/ }
  printf '| %s |' "${kind//:/ }"
  "$room/measure" "$room"
done

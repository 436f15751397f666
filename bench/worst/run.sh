#!/usr/bin/env bash
# Networks, failures and scripts of 16 MiB and reports of 256 MiB, nearly all of which is one thing. Prints a table. Name kinds to try these alone.
set -eu
cd "$(dirname "$0")/../.."
room=$(mktemp -d)
trap 'rm -r "$room"' EXIT
. bench/table.sh
model=crates/planner_top/data/model.txt
triangle=crates/planner_top/data/triangle.txt
kinds="network-opening network-nested network-word network-comment network-comments network-digits network-zeros network-places network-header
  failures-links script-word report-opening report-word report-comment report-comments report-spaces report-digits report-zeros report-places
  report-path report-demands"
heading
for kind in ${*:-$kinds}; do
  python3 bench/worst/generate.py "$kind" "$room/file.txt"
  case $kind in
    network-*) measure "$kind" "$program" plan "$room/file.txt" ;;
    failures-*) measure "$kind" "$program" plan "$triangle" "$model" "$room/file.txt" ;;
    script-*) measure "$kind" "$program" session "$triangle" default default "$room/file.txt" ;;
    report-*) measure "$kind" "$program" check "$triangle" default default "$room/file.txt" ;;
  esac
done

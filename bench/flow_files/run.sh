#!/usr/bin/env bash
# reads a file of flows of nearly 16 MiB with the program that is named
set -eu
program=$(realpath "$1")
here=$(cd "$(dirname "$0")" && pwd)
folder=$(mktemp -d)
trap 'rm -rf "$folder"' EXIT
"$here/long.py" "$folder"
cd "$folder"
/usr/bin/time -f "%e s, %M kB" "$program" import net.txt model.txt default flows.txt || true

# For the scripts of the folders beside it, which source it: one line of a table for each run of a command, and the
# machine and the commit that it was measured on.

# The program, built by `rt run` in crates/planner_top.
program=$PWD/crates/planner_top/out/planner_top

heading() {
  printf 'Processor: %s, %s of them; commit %s\n\n' \
    "$(sed -n 's/^model name[^:]*: //p' /proc/cpuinfo | head -1)" "$(nproc)" "$(git rev-parse --short HEAD)"
  printf '| Run | Seconds | Processor seconds | MB at most | Status | Last line |\n|---|---|---|---|---|---|\n'
}

# measure NAME COMMAND ARGUMENT ..: the least time of five runs.
measure() {
  local name=$1 best= line status
  shift
  for _ in 1 2 3 4 5; do
    status=0
    /usr/bin/time -q -f '%e %U %S %M' -o "$room/time" "$@" >"$room/output" || status=$?
    line=$(awk '{ printf "%.2f | %.2f | %.0f", $1, $2 + $3, $4 / 1024 }' "$room/time")
    if [ -z "$best" ] || [ "$(printf '%s\n%s\n' "$line" "$best" | sort -n | head -1)" = "$line" ]; then best=$line; fi
  done
  printf '| %s | %s | %s | `%s` |\n' "$name" "$best" "$status" "$(tail -1 "$room/output" | cut -c1-60)"
}

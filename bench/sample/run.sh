#!/usr/bin/env bash
# Samples worked out from their rules, apart from the code: the values that tests compare with.
set -euo pipefail
cd "$(dirname "$0")"
python3 sample.py 7 8
for arguments in "1 4" "18446744073709551615 5" "2 12" "3 40"; do
    # the counts, the last link and the last demand
    # shellcheck disable=SC2086
    python3 sample.py $arguments | awk 'NR == 1 { print } /^l/ { link = $0 } /^d/ { demand = $0 } END { print link; print demand }'
done
python3 sample.py 1 4 file

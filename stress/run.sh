#!/usr/bin/env bash
# Runs all scripts of this folder on the built program, or on that of TESEO. The last line counts those that found
# something.
set -uo pipefail
cd "$(dirname "$0")" || exit 1
wrong=0
for script in recover kills calls inputs threads; do
    echo "$script:"
    python3 "$script.py" || wrong=$((wrong + 1))
done
echo "5 scripts, $wrong wrong"
[ "$wrong" = 0 ]

#!/usr/bin/env bash
# Runs the example, and leaves what the run says and writes in a folder: said, s1.report, s2.report, j.
#
#     run.sh FOLDER COMMAND...
#
# FOLDER is there and empty. COMMAND gets the words of the run behind its own: `teseo`, or `rt try --`.
set -euo pipefail
[ $# -ge 2 ] || { echo "call it as $0 FOLDER COMMAND.., such as: $0 out teseo"; exit 2; }
example=$(cd "$(dirname "$0")" && pwd)
folder=$(cd "$1" && pwd)
shift

cp "$example/s1" "$example/s2" "$folder"
"$@" run --vertices "$example/v" --edges "$example/e" --journal "$folder/j" --schedule "$example/t" \
    "$folder/s1" "$folder/s2" >"$folder/said"
rm "$folder/s1" "$folder/s2"

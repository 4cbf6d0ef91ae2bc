#!/usr/bin/env bash
# Runs the example, and leaves what the run says and writes in a folder: said, hops, first.script.report, journal.
#
#     run.sh FOLDER COMMAND...
#
# FOLDER is there and empty. COMMAND gets the words of the run behind its own: `teseo`, or `rt try --`. The run names
# each file from the root on, since the command may run in another folder.
set -euo pipefail
[ $# -ge 2 ] || { echo "call it as $0 FOLDER COMMAND.., such as: $0 out teseo"; exit 2; }
example=$(cd "$(dirname "$0")" && pwd)
folder=$(cd "$1" && pwd)
shift

sed "s|^bfs 16 |&$folder/|" "$example/first.script" >"$folder/first.script"
"$@" run --vertices "$example/network.v" --edges "$example/network.e" --journal "$folder/journal" \
    "$folder/first.script" >"$folder/said"
rm "$folder/first.script"

#!/usr/bin/env bash
# Runs the example, and leaves what the run says and writes in a folder: said, works.report, planner.report, journal,
# way.before, way.after, way.cut.
#
#     run.sh FOLDER COMMAND...
#
# FOLDER is there and empty. COMMAND gets the words of the run behind its own: `teseo`, or `rt try --`. The run names
# each file from the root on, since the command may run in another folder.
set -euo pipefail
[ $# -ge 2 ] || { echo "call it as $0 FOLDER COMMAND.., such as: $0 out teseo"; exit 2; }
example=$(cd "$(dirname "$0")" && pwd)
folder=$(cd "$1" && pwd)
shift

cp "$example/works" "$folder"
sed -E "s#^sssp [0-9]+ #&$folder/#" "$example/planner" >"$folder/planner"
"$@" run --weights 1 --vertices "$example/roads.v" --edges "$example/roads.e" \
    --journal "$folder/journal" --schedule "$example/turns" "$folder/works" "$folder/planner" >"$folder/said"
rm "$folder/works" "$folder/planner"

#!/usr/bin/env bash
# Runs the example, and leaves what the run says and writes in a folder: said, field.report, monitor.report, journal,
# reach.up, reach.detour, reach.cut, reach.again.
#
#     run.sh FOLDER COMMAND...
#
# FOLDER is there and empty. COMMAND gets the words of the run behind its own: `teseo`, or `rt try --`. The run names
# each file from the root on, since the command may run in another folder.
set -euo pipefail
[ $# -ge 2 ] || { echo "call it as $0 FOLDER COMMAND.., such as: $0 out teseo"; exit 2; }
example=$(cd "$(dirname "$0")" && pwd)
folder=$(cd "$1" && pwd)
shift

cp "$example/field" "$folder"
sed -E "s#^bfs [0-9]+ #&$folder/#" "$example/monitor" >"$folder/monitor"
"$@" run --vertices "$example/routers.v" --edges "$example/links.e" \
    --journal "$folder/journal" --schedule "$example/turns" "$folder/field" "$folder/monitor" >"$folder/said"
rm "$folder/field" "$folder/monitor"

#!/usr/bin/env bash
# Runs the example, and leaves what the run says and writes in a folder: said, kernels.script.report, journal, hops,
# parts, areas, weights.
#
#     run.sh FOLDER COMMAND...
#
# FOLDER is there and empty. COMMAND gets the words of the run behind its own: `teseo`, or `rt try --`.
set -euo pipefail
[ $# -ge 2 ] || { echo "call it as $0 FOLDER COMMAND.., such as: $0 out teseo"; exit 2; }
example=$(cd "$(dirname "$0")" && pwd)
folder=$(cd "$1" && pwd)
shift

sed -E "s#^(bfs 16|wcc|cdlp 10|sssp 16) #&$folder/#" "$example/kernels.script" >"$folder/kernels.script"
"$@" run --vertices "$example/../first/network.v" --edges "$example/../first/network.e" --journal "$folder/journal" \
    "$folder/kernels.script" >"$folder/said"
rm "$folder/kernels.script"

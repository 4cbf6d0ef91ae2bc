#!/usr/bin/env bash
# Runs the two graphs, and leaves what the runs say and write in a folder: for each graph GRAPH-said, GRAPH.script.report,
# GRAPH-journal, GRAPH-BFS, GRAPH-CDLP, GRAPH-SSSP and GRAPH-WCC.
#
#     run.sh FOLDER COMMAND...
#
# FOLDER is there and empty. COMMAND gets the words of the runs behind its own: `teseo`, or `rt try --`.
set -euo pipefail
[ $# -ge 2 ] || { echo "call it as $0 FOLDER COMMAND.., such as: $0 out teseo"; exit 2; }
example=$(cd "$(dirname "$0")" && pwd)
folder=$(cd "$1" && pwd)
shift

# Runs the script of a graph, by the options behind the graph's name.
run_graph() {
    local graph=$1
    shift 1
    sed -E "s#^(bfs [0-9]+|cdlp 2|sssp [0-9]+|wcc) #&$folder/#" "$example/$graph.script" >"$folder/$graph.script"
    "${command[@]}" run --vertices "$example/$graph.v" --edges "$example/$graph.e" --weights 2 "$@" \
        --journal "$folder/$graph-journal" "$folder/$graph.script" >"$folder/$graph-said"
    rm "$folder/$graph.script"
}

command=("$@")
run_graph directed --directed
run_graph undirected

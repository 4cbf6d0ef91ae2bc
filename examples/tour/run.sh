#!/usr/bin/env bash
# Runs the three runs of README's tour, and leaves what each says and writes in a folder, under the name of the run.
#
#     run.sh FOLDER COMMAND...
#
# FOLDER is there and empty. COMMAND gets the words of the run behind its own: `teseo`, or `rt try --`. The run names
# each file from the root on, since the command may run in another folder.
set -euo pipefail
[ $# -ge 2 ] || { echo "call it as $0 FOLDER COMMAND.., such as: $0 out teseo"; exit 2; }
example=$(cd "$(dirname "$0")" && pwd)
folder=$(cd "$1" && pwd)
shift
command=("$@")

# Makes the run of this name, with these words before the scripts, and these scripts.
run() {
    local name=$1 words=$2 script scripts=()
    shift 2
    for script in "$@"; do
        sed -E "s#^(bfs [0-9]+|sssp [0-9]+|cdlp [0-9]+|wcc) #&$folder/$name.#" "$example/$script" >"$folder/$name.$script"
        scripts+=("$folder/$name.$script")
    done
    # The words are several.
    # shellcheck disable=SC2086
    "${command[@]}" run --vertices "$example/v" $words --journal "$folder/$name.journal" "${scripts[@]}" \
        >"$folder/$name.said"
    rm "${scripts[@]}"
}

run first "--edges $example/e" s1
run clash "--edges $example/e --schedule $example/turns" north south
run roads "--directed --weights 2 --edges $example/roads" kernels

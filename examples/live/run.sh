#!/usr/bin/env bash
# Makes the graph and the scripts, and runs them: the load by itself, the updates alone on two threads, and the updates
# with the analysis beside them on three. Leaves in a folder for each run what it says and writes, and in the file
# `seconds` how long each took.
#
#     run.sh FOLDER PROGRAM
#
# FOLDER is there and empty, and PROGRAM is `teseo`, or where it lies. What the environment may say: VERTICES and EDGES
# of the graph, TRANSACTIONS of each script of updates, and ANALYSES.
set -euo pipefail
[ $# -eq 2 ] || { echo "call it as $0 FOLDER PROGRAM, such as: $0 out teseo"; exit 2; }
example=$(cd "$(dirname "$0")" && pwd)
command -v "$2" >/dev/null || { echo "there is no program $2"; exit 2; }
program=$(realpath "$(command -v "$2")")
cd "$1"

# Runs scripts in a folder of their own, and notes how long that takes.
run() {
    local name=$1 threads=$2 TIMEFORMAT=%R LC_ALL=C
    shift 2
    mkdir "$name"
    cp "$@" "$name"
    cd "$name"
    { time "$program" run --vertices ../v --edges ../e --journal journal --threads "$threads" "$@" >said; } 2>taken
    cd ..
    echo "$name $(cat "$name/taken")" >>seconds
    echo "$name: $(cat "$name/taken") seconds, $(cat "$name/said")"
}

"$program" make --seed 7 --vertices "${VERTICES:-100000}" --edges "${EDGES:-300000}" --out v --edges-out e
python3 "$example/make.py" e "${TRANSACTIONS:-100000}" "${ANALYSES:-10}"
: >nothing
run load 1 nothing
run alone 2 updates1 updates2
run beside 3 updates1 updates2 analysis

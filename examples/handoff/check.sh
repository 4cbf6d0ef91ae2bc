#!/usr/bin/env bash
# Compares far with teseo, byte by byte, on made graphs and on small odd ones, on 1, 2 and 4 processes; and tries fold
# on the journals of these runs, of two that change the graph, and on spoiled ones.
#
#     check.sh [TESEO]
#
# TESEO is the program, crates/teseo/out/teseo where none is named. Installs nothing. Run by hand: the gate doesn't
# depend on it.
set -uo pipefail
here=$(cd "$(dirname "$0")" && pwd)
teseo=$(realpath "${1:-$here/../../crates/teseo/out/teseo}")
work=$(mktemp -d)
trap 'rm -rf "$work"' EXIT
compared=0
differing=0

# Says which of Debian's packages are missing, and ends where one is.
look_for_packages() {
    local missing=() headers=/usr/include
    command -v g++ >/dev/null || missing+=(g++)
    command -v make >/dev/null || missing+=(make)
    command -v mpirun >/dev/null || missing+=(openmpi-bin)
    command -v mpicxx >/dev/null || missing+=(libopenmpi-dev)
    [ -e "$headers/boost/mpi.hpp" ] || missing+=(libboost-mpi-dev)
    [ -e "$headers/boost/graph/distributed/mpi_process_group.hpp" ] || missing+=(libboost-graph-parallel-dev)
    [ -x "$teseo" ] || echo "There is no program $teseo: make build"
    [ ${#missing[@]} = 0 ] || echo "Debian's packages are missing: ${missing[*]}"
    [ ${#missing[@]} = 0 ] && [ -x "$teseo" ] || exit 1
}

# Open MPI asks for these where root calls it, and counts processors, of which there may be fewer than processes.
export OMPI_ALLOW_RUN_AS_ROOT=1 OMPI_ALLOW_RUN_AS_ROOT_CONFIRM=1

# Counts a comparison of two files.
compare() {
    compared=$((compared + 1))
    cmp -s "$1" "$2" || {
        differing=$((differing + 1))
        echo "$3: $1 and $2 differ"
    }
}

# The lines of `$lines`, with a folder before the name of each result.
kernels_into() {
    local line
    while read -r line; do echo "${line% *} $1/${line##* }"; done <<<"$lines"
}

# Runs the kernels of `$lines`, of which each result has its own name, by teseo and by far, in the case's folder with
# its files v and e. Behind the name stand the options of both.
try_case() {
    local name=$1 processes before=$differing
    shift
    mkdir -p "$name"/near
    { echo begin && kernels_into near && echo abort; } >"$name/script"
    (cd "$name" && "$teseo" run --vertices v --edges e --journal journal "$@" script) >"$name/said" || {
        echo "$name: teseo says $(cat "$name/said")"
        differing=$((differing + 1))
        return
    }
    for processes in 1 2 4; do
        mkdir "$name/on$processes"
        mapfile -t words < <(kernels_into "on$processes")
        (cd "$name" && mpirun --oversubscribe -n $processes "$here/far/out/far" "$@" v e "${words[@]}") \
            >"$name/told" 2>&1 || { echo "$name: far on $processes:" && cat "$name/told"; }
        for result in "$name"/near/*; do
            compare "$result" "$name/on$processes/$(basename "$result")" "$name on $processes"
        done
    done
    try_fold "$name" "$@"
    echo "$name ($*): $(sed -E 's/ undo.*//; s/commits [01] //' "$name/said"), $((differing - before)) differ"
}

# Folds a run's journal, and runs teseo on what comes out: the results are those of the run. A run of nothing has no
# commit, but its fold is an empty graph all the same.
try_fold() {
    local name=$1 again=$1/again option
    local -a options=()
    shift
    for option; do
        [ "$option" = --cut ] || options+=("$option")
    done
    mkdir -p "$again/near"
    cp "$name/script" "$again/script"
    "$here/fold/out/fold" "$name/journal" "$again/v" "$again/e" "${options[@]}" >/dev/null
    (cd "$again" && "$teseo" run --vertices v --edges e --journal journal "${options[@]}" script) >/dev/null
    for result in "$name"/near/*; do compare "$result" "$again/near/$(basename "$result")" "$name, folded"; done
}

# A made graph, each edge with a weight of one digit behind the point, and some of them 0.
make_case() {
    local name=$1 seed=$2 vertices=$3 edges=$4
    mkdir "$name"
    "$teseo" make --seed "$seed" --vertices "$vertices" --edges "$edges" --out "$name/v" --edges-out "$name/made" \
        >/dev/null
    awk '{ print $1, $2, ($1 * 31 + $2 * 17) % 100 / 10 }' "$name/made" >"$name/e"
}

# A small graph: its ids and its edges, with `/` between lines.
small_case() {
    mkdir "$1"
    printf '%s' "$2" | tr / '\n' >"$1/v"
    printf '%s' "$3" | tr / '\n' >"$1/e"
}

# Writes of each kind for the edges of a made graph, in many small transactions.
changes_of() {
    awk '{ new = 5000 + NR; other = 9000 + NR }
         NR % 3 == 0 { print "begin\ndrop", $1, $2, "\ncommit" }
         NR % 5 == 0 { print "begin\nset", $1, $2, NR, "\ncommit" }
         NR % 7 == 0 { print "begin\nvertex", new, "\nedge", $1, new, "\nedge", new, $2, NR, "\ncommit" }
         NR % 8 == 0 { print "begin\nvertex", other, "\ncommit\nbegin\nunvertex", other, "\ncommit" }
         NR % 14 == 0 { print "begin\ndrop", $1, new, "\ndrop", new, $2, "\nunvertex", new, "\ncommit" }' "$1"
}

# Changes a made graph by a script, and folds the journal up to the load and to its end: the kernels give there what
# they gave in the run, before the changes and behind them.
try_changes() {
    local name=$1 before=$differing stage
    shift
    mkdir "$name/before" "$name/behind"
    {
        echo begin && kernels_into before && echo abort
        changes_of "$name/made"
        echo begin && kernels_into behind && echo abort
    } >"$name/script"
    (cd "$name" && "$teseo" run --vertices v --edges e --journal journal "$@" script) >"$name/said"
    for stage in before behind; do
        mkdir -p "$name/$stage-again/$stage"
        { echo begin && kernels_into $stage && echo abort; } >"$name/$stage-again/script"
        upto=() && [ $stage = behind ] || upto=(--upto 1)
        "$here/fold/out/fold" "$name/journal" "$name/$stage-again/v" "$name/$stage-again/e" "$@" "${upto[@]}" >/dev/null
        (cd "$name/$stage-again" && "$teseo" run --vertices v --edges e --journal journal "$@" script) >/dev/null
        for result in "$name/$stage"/*; do
            compare "$result" "$name/$stage-again/$stage/$(basename "$result")" "$name, folded $stage"
        done
    done
    echo "$name ($*): $(sed 's/ undo.*//' "$name/said"), $((differing - before)) differ"
}

# A journal that fold must refuse: what stands behind its first five lines, and the fault.
try_spoiled() {
    local said
    printf 'commit 1 start 0 by 0.1\nvertex 1\nvertex 2\nvertex 3\nedge 1 2 1\n%b' "$1" >spoiled
    said=$("$here/fold/out/fold" spoiled v e)
    compared=$((compared + 1))
    [ "$said" = "spoiled line 6: $2" ] || {
        differing=$((differing + 1))
        echo "fold of $1 says $said, where '$2' is wanted"
    }
}

try_made_graphs() {
    local count=0 size options
    lines=$'bfs 1 hops\nsssp 1 ways\nwcc parts\ncdlp 0 ids\ncdlp 1 once\ncdlp 10 groups'
    for size in '1 60 400' '2 1000 3000' '3 2000 900'; do
        for options in '' '--directed' '--weights 1' '--directed --weights 1' '--directed --weights 0 --cut'; do
            count=$((count + 1))
            # Both are several words.
            # shellcheck disable=SC2086
            make_case "made-$count" $size
            # shellcheck disable=SC2086
            try_case "made-$count" $options
        done
    done
}

try_changed_graphs() {
    lines=$'bfs 1 hops\nsssp 1 ways\nwcc parts\ncdlp 10 groups'
    make_case changed-1 4 200 500 && try_changes changed-1 --weights 1
    make_case changed-2 4 200 500 && try_changes changed-2 --directed --weights 1
}

try_small_graphs() {
    local most=9223372036854775806
    lines=$'wcc parts\ncdlp 3 groups'
    small_case none '' '' && try_case none
    small_case none-directed '' '' && try_case none-directed --directed
    lines=$'bfs 5 hops\nsssp 5 ways\nwcc parts\ncdlp 3 groups'
    small_case one '5' '' && try_case one --weights 0
    small_case no-arcs '9/5/7/1/3/' '' && try_case no-arcs --directed --weights 0
    small_case three '5/2/9/' '2 5 3/5 9 4/' && try_case three --weights 0
    small_case both-ways '5/2/9/' '2 5 3/5 2 3/5 9 4/9 5 7/' && try_case both-ways --directed --weights 0
    small_case listed-twice '5/2/9/' '2 5 3/5 2 3/' && try_case listed-twice --weights 0
    small_case large-ids "$most/5/9223372036854775805/0/" "5 $most 1/$most 0 2/" && try_case large-ids --weights 0
    small_case weights '5/1/2/3/4/' '5 1 0/1 2 4294967295/2 3 4294967295/5 3 4294967294/3 4 0/'
    try_case weights --weights 0
    small_case weights-directed '5/1/2/3/4/' '5 1 4294967295/1 2 4294967295/2 3 4294967295/3 4 4294967295/'
    try_case weights-directed --directed --weights 0
    small_case star '5/1/2/3/4/6/7/8/' '5 1 1/5 2 2/5 3 3/5 4 4/5 6 5/5 7 6/5 8 7/' && try_case star --weights 0
    small_case loose-lines $'# ids/5\r/ 1 //2' $'#/ 5\t1  .5/1 2 2.\r//5 2 007.50' && try_case loose-lines --weights 1
}

try_spoiled_journals() {
    try_spoiled 'vertex 1\n' 'exists'
    try_spoiled 'vertex x\n' 'not a number'
    try_spoiled 'vertex 9223372036854775807\n' 'id too large'
    try_spoiled 'unvertex 9\n' 'no vertex'
    try_spoiled 'unvertex 2\n' 'has edges'
    try_spoiled 'edge 2 1 1\n' 'exists'
    try_spoiled 'edge 1 1 1\n' 'self loop'
    try_spoiled 'edge 1 9 1\n' 'no vertex'
    try_spoiled 'edge 1 3\n' 'missing field'
    try_spoiled 'edge 1 3 4294967296\n' 'weight too large'
    try_spoiled 'set 1 3 1\n' 'no edge'
    try_spoiled 'drop 1 2 1\n' 'extra field'
    try_spoiled 'drop 1 2' 'no line feed'
    try_spoiled 'commit 3 start 1 by 1.1\n' 'not the next commit'
    try_spoiled 'commit 2 start 2 by 1.1\n' 'starts behind itself'
    try_spoiled 'bfs 1 o\n' 'not a line of a journal'
    try_spoiled '\n' 'not a line of a journal'
}

look_for_packages
make -s -C "$here/fold" && make -s -C "$here/far" || exit 1
cd "$work" || exit 1
try_changed_graphs
try_made_graphs
try_small_graphs
try_spoiled_journals
echo "$compared compared, $differing differ"
[ "$differing" = 0 ]

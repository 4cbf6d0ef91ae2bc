#!/usr/bin/env bash
# Builds the program, runs the whole command on graphs of three sizes and two kinds, and prints a table. Then come a table
# of what it takes to read and load a graph with weights, one of many scripts of short transactions, one of such scripts
# with --serial and without, one of the image and the kernels by themselves, one of the parts of the store over leaves, one
# of latches and pins, one of transactions by calls of the engine, one of transactions of threads on one store, three of
# workers of one store, one of scripts with --threads, and one of commits that are kept. All inputs are made from a seed in a temporary folder, which is
# removed at the end. RUNS=N and SEED=N change how often each is run (3), and which inputs they are (1). ONLY=runs,
# ONLY=serial, ONLY=kernels, ONLY=segments, ONLY=latches, ONLY=engine, ONLY=churn, ONLY=shared, ONLY=workers, ONLY=threads
# and ONLY=keep print one part alone.
set -euo pipefail

top=$(cd "$(dirname "$0")/.." && pwd)
program=$top/crates/teseo/out/teseo
kernels=$top/crates/bench_kernels/out/bench_kernels
segments=$top/crates/bench_store/out/bench_store
engine=$top/crates/bench_engine/out/bench_engine
latches=$top/crates/bench_latches/out/bench_latches
shared=$top/crates/bench_shared/out/bench_shared
workers=$top/crates/bench_workers/out/bench_workers
runs=${RUNS:-3}
seed=${SEED:-1}

# Makes graph.v, graph.e and the script `search` in the folder that it is called in. Random graphs are made by `teseo`.
make_inputs() {
    local kind=$1 vertices=$2 edges=$3
    if [ "$kind" = random ]; then
        "$program" make --seed "$seed" --vertices "$vertices" --edges "$edges" --out graph.v --edges-out graph.e >said || fail
    else
        python3 "$top/bench/generate.py" --kind "$kind" --vertices "$vertices" --edges "$edges" --seed "$seed" --out graph
    fi
    printf 'begin\nbfs 1 distances\ncommit\n' >search
}

# How many edges a graph of a kind has: `teseo make` makes 3,000,000 at most.
edges_of() {
    local kind=$1 vertices=$2
    if [ "$kind" = random ]; then echo $((vertices * 3)); else echo $((vertices * 7 / 2)); fi
}

# Whether the last run left what a run on such a graph leaves.
is_as_expected() {
    local vertices=$1 edges=$2
    grep -qx "commits 1 vertices $vertices edges $edges undo 0 retired 0" said &&
        [ "$(wc -l <distances)" = "$vertices" ] &&
        [ "$(wc -l <journal)" = $((1 + vertices + edges)) ]
}

# Ends the script, and shows what the program and the measurement said.
fail() {
    echo "run.sh: a run did not end as it is to; it said:" >&2
    cat said >&2
    exit 1
}

# The load of the machine in the last minute.
load() {
    uptime | sed 's/.*load average[s]*: *\([0-9.]*\).*/\1/'
}

nanoseconds_a_row() {
    awk -v seconds="$1" -v rows="$2" 'BEGIN { print seconds * 1e9 / rows }'
}

# Prints the table's row for one graph.
measure() {
    local kind=$1 vertices=$2 edges=$3 figures best worst processor memory rows
    make_inputs "$kind" "$vertices" "$edges"
    figures=$(python3 "$top/bench/measure.py" --runs "$runs" --remove journal --remove distances \
        --remove search.report -- \
        "$program" run --vertices graph.v --edges graph.e --journal journal search 2>said) || fail
    is_as_expected "$vertices" "$edges" || fail
    read -r best worst processor memory <<<"$figures"
    rows=$((vertices + 2 * edges))
    printf '| %-9s | %8d | %8d | %6s | %6s | %9s | %6d | %6.0f | %5s |\n' "$kind" "$vertices" "$edges" "$best" \
        "$worst" "$processor" "$memory" "$(nanoseconds_a_row "$best" "$rows")" "$(load)"
}

# Prints the table's row of reading: a graph of 1,000,000 vertices and 3,000,000 edges with weights, each id so many times
# what it is, and one transaction without a line.
measure_reading() {
    local ids=$1 spread=$2 vertices=1000000 best worst processor memory
    make_inputs random "$vertices" $((vertices * 3))
    awk -v spread="$spread" '{ printf "%.0f\n", $1 * spread }' graph.v >read.v
    awk -v spread="$spread" '{ printf "%.0f %.0f %d.%02d\n", $1 * spread, $2 * spread, NR % 1000, NR % 100 }' graph.e >read.e
    printf 'begin\ncommit\n' >none
    read -r best worst processor memory < <(python3 "$top/bench/measure.py" --runs "$runs" --remove journal -- \
        "$program" run --vertices read.v --edges read.e --weights 2 --journal journal none 2>said)
    [ -n "$memory" ] || fail
    printf '| %-6s | %6d | %6s | %6s | %9s | %6d | %5s |\n' "$ids" "$(($(stat -c %s read.v read.e | paste -sd+) >> 20))" \
        "$best" "$worst" "$processor" "$memory" "$(load)"
}

# Prints the table's row of transactions: so many scripts of so many transactions, by rotation, on a graph of 100,000 vertices.
# The run of one empty transaction on the same graph is what the load and the texts of it take.
measure_transactions() {
    local scripts=$1 transactions=$2 vertices=100000 names load_best best worst processor memory
    make_inputs random "$vertices" $((vertices * 3))
    python3 "$top/bench/scripts.py" --scripts "$scripts" --transactions "$transactions" --vertices "$vertices" \
        --seed "$seed" --out short
    printf 'begin\ncommit\n' >none
    mapfile -t names < <(seq -f 'short.%g' 1 "$scripts")
    read -r load_best _ < <(python3 "$top/bench/measure.py" --runs "$runs" --remove journal -- \
        "$program" run --vertices graph.v --edges graph.e --journal journal none 2>said)
    read -r best worst processor memory < <(python3 "$top/bench/measure.py" --runs "$runs" --remove journal -- \
        "$program" run --vertices graph.v --edges graph.e --journal journal "${names[@]}" 2>said)
    [ -n "$memory" ] || fail
    printf '| %7d | %12d | %6s | %6s | %9s | %6d | %6s | %8.0f | %5s |\n' "$scripts" "$transactions" "$best" "$worst" \
        "$processor" "$memory" "$load_best" \
        "$(awk -v n=$((scripts * transactions)) -v all="$best" -v load="$load_best" 'BEGIN { print n / (all - load) }')" \
        "$(load)"
}

# Runs the scripts `short.1` to `short.60` once, and adds its seconds, processor seconds and memory to a file.
run_short() {
    local file=$1 names
    shift
    mapfile -t names < <(seq -f 'short.%g' 1 60)
    python3 "$top/bench/measure.py" --runs 1 --remove journal -- "$program" run --vertices graph.v --edges graph.e \
        --journal journal "$@" "${names[@]}" 2>said >>"$file" || fail
}

# Prints the table's row of runs that were measured one by one: the best and the worst, the least processor time, and the
# most memory.
print_short() {
    local name=$1 file=$2
    awk -v name="$name" '
        NR == 1 || $1 < best { best = $1 }
        $1 > worst { worst = $1 }
        NR == 1 || $3 < processor { processor = $3 }
        $4 > memory { memory = $4 }
        END { printf "| %-8s | %6.2f | %6.2f | %9.2f | %6d |\n", name, best, worst, processor, memory }' "$file"
}

# Prints the table of 60 scripts of 1,000 transactions on a graph of 100,000 vertices, with `--serial` and without, by turns.
print_serial() {
    local vertices=100000
    make_inputs random "$vertices" $((vertices * 3))
    python3 "$top/bench/scripts.py" --scripts 60 --transactions 1000 --vertices "$vertices" --seed "$seed" --out short
    for _run in $(seq "$runs"); do
        run_short without
        run_short with --serial
    done
    echo '| --serial |   Best |  Worst | Processor | Memory |'
    echo '|----------|-------:|-------:|----------:|-------:|'
    print_short without without
    print_short with with
    echo
    echo "Seconds of the whole command, of 60 scripts of 1,000 transactions of one edge each, on a random graph of $vertices"
    echo "vertices, by turns. Load is $(load) now."
    echo
}

# The least and the greatest time of each part, in milliseconds, of the lines that bench_kernels prints, by name.
bounds() {
    sort -k 1,1 -k 2,2n | awk '
        $1 != name { if (name != "") print name, least / 1000, most / 1000; name = $1; least = $2 }
        { most = $2 }
        END { print name, least / 1000, most / 1000 }'
}

# Prints the table of the image and the kernels over a graph of so many edges, or over a path for 0, on one core and on all.
print_kernels() {
    local edges=$1 vertices=1000000
    echo '| Part                | One, best | One, worst | All, best | All, worst |'
    echo '|---------------------|----------:|-----------:|----------:|-----------:|'
    taskset -c 0 "$kernels" "$vertices" "$edges" "$seed" "$runs" | bounds >one_core
    "$kernels" "$vertices" "$edges" "$seed" "$runs" | bounds >all_cores
    join one_core all_cores | while read -r name one_best one_worst all_best all_worst; do
        printf '| %-19s | %9.0f | %10.0f | %9.0f | %10.0f |\n' "$name" "$one_best" "$one_worst" "$all_best" "$all_worst"
    done
    echo
    echo "Milliseconds on a $2, from rows in memory to the"
    echo "table in memory: on one core, and on all. image is made from the rows, the searches and the shortest paths begin at"
    echo "vertex 1, fastsssp/W has buckets that are W wide, cdlp has ten rounds. Load is $(load) now."
    echo
}

# Prints the table of the parts of the store over leaves, in the order in which bench_store has them.
print_segments() {
    echo '| Part               | ns a call |'
    echo '|--------------------|----------:|'
    "$segments" "$seed" "$runs" | awk '
        !($1 in least) { names[++parts] = $1; least[$1] = $2 }
        $2 + 0 < least[$1] + 0 { least[$1] = $2 }
        END { for (part = 1; part <= parts; part++) printf "| %-18s | %9s |\n", names[part], least[names[part]] }'
    echo
    echo "Nanoseconds of a call in the best round of all runs. What a part does is told in crates/bench_store/README.md."
    echo "Load is $(load) now."
}

# Prints the table of a load, of transactions and of a scan by calls of the engine, on a random graph or on one by R-MAT.
print_engine() {
    local run
    echo '| Part         |    Count | Best, a second | Worst, a second |'
    echo '|--------------|---------:|---------------:|----------------:|'
    for run in $(seq "$runs"); do "$engine" 1000000 3500000 262144 "$seed" 0 0 "$1"; done | awk '
        !($1 in count) { names[++parts] = $1; count[$1] = $2; least[$1] = $3 }
        $3 + 0 > most[$1] + 0 { most[$1] = $3 }
        $3 + 0 < least[$1] + 0 { least[$1] = $3 }
        END { for (part = 1; part <= parts; part++) {
            name = names[part]
            printf "| %-12s | %8d | %14d | %15d |\n", name, count[name], most[name], least[name]
        } }'
    echo
    echo "A graph of 1,000,000 vertices and 3,500,000 edges, $2, is loaded, 262,144 transactions of"
    echo "one edge each are run by one pass, and all rows are scanned. What is counted is told in"
    echo "crates/bench_engine/README.md. Load is $(load) now."
    echo
}

# Prints a table of 2,000,000 transactions that set the same 10,000 edges, at ten moments: without a transaction that stays
# open, or with one.
print_churn() {
    echo "| Made     | a second |     Undo | Retired | Leaves | Memory |   Rest |"
    echo "|---------:|---------:|---------:|--------:|-------:|-------:|-------:|"
    "$top/bench/churn.py" -- "$engine" 100000 300000 2000000 "$seed" 10000 "$1" || fail
    echo
    echo "Transactions of one pass set 10,000 edges of a random graph of 100,000 vertices and 300,000 edges again and again,"
    echo "while $2. Undo, Retired and Leaves are the records, the retired leaves"
    echo "and the leaves in use at that moment, Memory is that of the whole process in MiB, and Rest what of it is left"
    echo "without the journal so far and the list of what the pass did."
    echo
}

# Prints the tables of whole runs.
print_runs() {
    local vertices kind scripts
    echo '| Kind      | Vertices |    Edges |   Best |  Worst | Processor | Memory | ns row |  Load |'
    echo '|-----------|---------:|---------:|-------:|-------:|----------:|-------:|-------:|------:|'
    for vertices in 1000 100000 1000000; do
        for kind in random power-law; do
            measure "$kind" "$vertices" "$(edges_of "$kind" "$vertices")"
        done
    done
    echo
    echo "Best and Worst are seconds of the whole command by the clock, Processor is the least seconds of processor time"
    echo "of a run, Memory is the peak in MiB, ns row is Best in nanoseconds for each row of the store (one for a vertex,"
    echo "and one for each direction of an edge), and Load is that of the last minute when the runs ended."
    echo
    echo '| Ids    |    MiB |   Best |  Worst | Processor | Memory |  Load |'
    echo '|--------|-------:|-------:|-------:|----------:|-------:|------:|'
    measure_reading dense 1
    measure_reading sparse 7919
    echo
    echo "A graph of 1,000,000 vertices and 3,000,000 edges with weights is read and loaded, and one transaction has no line."
    echo
    echo '| Scripts | Transactions |   Best |  Worst | Processor | Memory | Graph  | a second |  Load |'
    echo '|--------:|-------------:|-------:|-------:|----------:|-------:|-------:|---------:|------:|'
    for scripts in 1 60; do
        measure_transactions "$scripts" 10000
    done
    echo
    echo "Each script has so many transactions of one edge each, which take their lines in turn with those of the other"
    echo "scripts. Graph is the best time of a run with one empty transaction on the same graph; a second is the"
    echo "number of all transactions by what is left of Best without it, with the scripts' reading and their reports."
    echo
}

# Prints the table of latches and pins, with the same steps by std::atomic, by turns. Of one-cell-least it is the most.
print_latches() {
    g++ -O3 -march=x86-64-v2 -std=c++20 "$top/bench/latches.cpp" -o latches_by_atomics -lpthread
    for _run in $(seq "$runs"); do
        "$latches" "$seed" 1 >>ours
        ./latches_by_atomics "$seed" 1 >>theirs
    done
    echo '| Part           | Least | Most | std::atomic, least | Most |'
    echo '|----------------|------:|-----:|-------------------:|-----:|'
    join <(spread ours) <(spread theirs) | awk '{ printf "| %-14s | %5s | %4s | %18s | %4s |\n", $1, $2, $3, $4, $5 }'
    echo
    echo "Nanoseconds of a call in the best round of a run; of one-cell-least hundredths of the mean. What a part does is told in"
    echo "crates/bench_latches/README.md. Load is $(load) now."
}

# Prints the table of transactions that one, two and four threads make on one store, by turns.
print_shared() {
    local threads
    for _run in $(seq "$runs"); do
        for threads in 1 2 4; do
            "$shared" 1000000 3500000 262144 "$seed" "$threads" | sed "s/^/$threads /" >>shared_lines
        done
    done
    echo '| Threads | Best, a second | Worst, a second |   Made | No place | Refused |'
    echo '|--------:|---------------:|----------------:|-------:|---------:|--------:|'
    awk '
        $2 == "transactions" && (!($1 in most) || $4 + 0 > most[$1] + 0) { most[$1] = $4 }
        $2 == "transactions" && (!($1 in least) || $4 + 0 < least[$1] + 0) { least[$1] = $4 }
        $2 == "made" { made[$1] = $3; crowded[$1] = $5; refused[$1] = $7 }
        END { for (n = 1; n <= 4; n *= 2)
            printf "| %7d | %14d | %15d | %6d | %8d | %7d |\n", n, most[n], least[n], made[n], crowded[n], refused[n] }
    ' shared_lines
    echo
    echo "262,144 transactions of one edge each by so many threads, on a graph of 1,000,000 vertices and 3,500,000 edges that is"
    echo "drawn by R-MAT. What is counted is told in crates/bench_shared/README.md. Load is $(load) now."
    echo
}

# The greatest of the last words but one, and of the last words, of the lines in a file that begin so.
most_of() {
    awk -v begins="$1 " 'index($0, begins) == 1 {
        if ($(NF - 1) + 0 > rate) rate = $(NF - 1)
        if ($NF + 0 > beside) beside = $NF
    }
    END { print rate + 0, beside + 0 }' "$2"
}

# Adds the lines of one run of reads and scans by so many readers, and of reads of an ordered map where it was built.
measure_readers() {
    local readers=$1 writer
    "$workers" reads 1000000 3500000 "$seed" "$readers" 1000000 >>worker_lines
    "$workers" scans 1000000 3500000 "$seed" "$readers" 10 >>worker_lines
    [ -x ordered_map ] || return 0
    for writer in 0 1; do
        echo "map $readers $writer $(./ordered_map s . "$readers" reads "$writer" 1000000 | awk '{ print $2 }' | paste -sd' ')" >>map_lines
    done
}

# Prints the rows of a table of reads or of scans: readers, writers, millions a second, transactions beside them a second, and
# of reads the same two of an ordered map.
print_readers() {
    local part=$1 readers writer rate beside map
    echo "| $part by | Writers | M a second | Transactions a second | Ordered map, M a second | Transactions a second |"
    echo '|---:|---:|---:|---:|---:|---:|'
    for readers in 1 2 3; do
        for writer in 0 1; do
            read -r rate beside < <(most_of "$part $readers $writer" worker_lines)
            map=' | '
            if [ "$part" = reads ] && [ -f map_lines ]; then
                map=$(most_of "map $readers $writer" map_lines | awk '{ printf "%.2f | %d", $1 / 1e6, $2 }')
            fi
            printf '| %d | %d | %s | %d | %s |\n' "$readers" "$writer" \
                "$(awk -v n="$rate" 'BEGIN { printf "%.2f", n / 1e6 }')" "$beside" "$map"
        done
    done
    echo
}

# Prints the tables of reads and of scans by one to three readers, alone and beside a writer, by turns, with those of an
# ordered map behind a lock where rustc is installed, and the table of turns of the service.
print_workers() {
    local readers
    if rustc --edition=2021 -Copt-level=2 "$top/bench/others/ordered_map.rs" -o ordered_map 2>said; then
        g++ -O2 -std=c++20 "$top/bench/others/graphs.cpp" -o graphs
        ./graphs s 1000000 3500000 "$seed" 1
    fi
    for _run in $(seq "$runs"); do
        for readers in 1 2 3; do measure_readers "$readers"; done
        "$workers" turns 1000000 3500000 "$seed" 1 400000 >>turn_lines
    done
    print_readers reads
    print_readers scans
    echo '| Part  | Least ns | Most |'
    echo '|-------|---------:|-----:|'
    awk '$1 == "turn" || $1 == "sweep" { print $1, $3 }' turn_lines >turn_times
    spread turn_times | awk '{ printf "| %-5s | %8d | %4d |\n", $1, $2, $3 }'
    echo
    echo "The best of $runs runs, on a graph of 1,000,000 vertices and 3,500,000 edges by R-MAT. What a part does is told in"
    echo "crates/bench_workers/README.md: a turn is a sweep or a turn of merging, and a sweep is one by itself. Load is $(load) now."
    echo
    print_worker_churn
}

# Prints the table of 2,000,000 updates of the same 10,000 edges by four workers beside the service, at ten moments.
print_worker_churn() {
    echo "| Made     | a second |     Undo | Retired | Leaves | Memory |   Rest |"
    echo "|---------:|---------:|---------:|--------:|-------:|-------:|-------:|"
    "$top/bench/churn.py" --kept 96 -- "$workers" churn 100000 300000 "$seed" 4 2000000 || fail
    echo
    echo "Four workers set 10,000 edges of a graph by R-MAT of 100,000 vertices and 300,000 edges again and again, and a fifth"
    echo "takes turns of the service. The columns are those of ONLY=churn; Rest is without the journal, 96 bytes a transaction."
    echo
}

# Runs the command on the graph once, with these words, and adds its seconds to a file.
run_once() {
    local file=$1
    shift
    python3 "$top/bench/measure.py" --runs 1 --remove journal -- "$program" run --vertices graph.v \
        --edges graph.e --journal journal "$@" 2>said >>"$file" || fail
}

# The least of the first numbers of a file's lines.
least_of() {
    sort -n "$1" | awk 'NR == 1 { print $1 }'
}

# Prints the table of four scripts of 65,536 transactions of one edge each, by turns and on so many threads, alone and
# beside a script of analyses, on a power-law graph of 1,000,000 vertices.
print_threads() {
    local vertices=1000000 each=65536 way name load_best alone beside
    make_inputs power-law "$vertices" $((vertices * 7 / 2))
    python3 "$top/bench/scripts.py" --scripts 4 --transactions "$each" --vertices "$vertices" --seed "$seed" --out short
    printf 'begin\ncommit\n' >none
    for name in o1 o2 o3; do printf 'begin\nbfs 1 %s\nabort\n' "$name"; done >searches
    for _run in $(seq "$runs"); do
        for way in turns 1 2 4; do
            local words=()
            [ "$way" = turns ] || words=(--threads "$way")
            run_once "load.$way" "${words[@]}" none
            run_once "alone.$way" "${words[@]}" short.1 short.2 short.3 short.4
            [ "$way" = turns ] || words=(--threads $((way + 1)))
            run_once "beside.$way" "${words[@]}" searches short.1 short.2 short.3 short.4
        done
    done
    echo '| Threads | Load, s | Alone, s | a second | Beside, s |'
    echo '|--------:|--------:|---------:|---------:|----------:|'
    for way in turns 1 2 4; do
        load_best=$(least_of "load.$way")
        alone=$(least_of "alone.$way")
        beside=$(least_of "beside.$way")
        name=$way
        [ "$way" != turns ] || name=none
        printf '| %7s | %7.2f | %8.2f | %8.0f | %9.2f |\n' "$name" "$load_best" "$alone" \
            "$(awk -v n=$((4 * each)) -v all="$alone" -v load="$load_best" 'BEGIN { print n / (all - load) }')" "$beside"
    done
    echo
    echo "Seconds of the whole command, the best of $runs runs by turns. Load is a run of one empty transaction, Alone one of four"
    echo "scripts of $each transactions of one edge each, a second the transactions by what is left of Alone without Load,"
    echo "and Beside the same scripts with three searches in a fifth one, on a thread more. Load of the machine is $(load) now."
    echo
}

# Prints the table of 20,000 vertices that are added in transactions of one, ten and a hundred, with `--keep` and without,
# by turns. The journal file is in the temporary folder (TMPDIR), so the figures are those of its disk.
print_keep() {
    local vertices=1000 added=20000 size without with
    make_inputs random "$vertices" $((vertices * 3))
    echo '| Vertices a transaction | Transactions | Without, s | With --keep, s | Commits a second |'
    echo '|-----------------------:|-------------:|-----------:|---------------:|-----------------:|'
    for size in 1 10 100; do
        awk -v first=$((vertices + 1)) -v added="$added" -v size="$size" 'BEGIN {
            for (n = 0; n < added; n++) {
                if (n % size == 0) print "begin"
                print "vertex", first + n
                if (n % size == size - 1) print "commit"
            } }' >grows
        for _run in $(seq "$runs"); do
            run_once "without.$size" grows
            run_once "with.$size" --keep kept grows
        done
        without=$(least_of "without.$size")
        with=$(least_of "with.$size")
        printf '| %22d | %12d | %10.2f | %14.2f | %16.0f |\n' "$size" $((added / size)) "$without" "$with" \
            "$(awk -v n=$((added / size)) -v with="$with" -v without="$without" 'BEGIN { print n / (with - without) }')"
    done
    echo
    echo "Seconds of the whole command, the best of $runs runs by turns; a second counts what --keep takes alone. Load is $(load) now."
    echo
}

# The least and the most of each name's numbers, by name.
spread() {
    sort -k 1,1 -k 2,2n "$1" | awk '
        $1 != name { if (name != "") print name, least, most; name = $1; least = $2 }
        { most = $2 }
        END { print name, least, most }'
}

# Whether this part of the tables is wanted.
is_wanted() {
    [ -z "${ONLY:-}" ] || [ "$ONLY" = "$1" ]
}

# Builds what the wanted tables need. `rt run` builds a program only to run it; with no words these do nothing.
build() {
    if is_wanted runs || is_wanted serial || is_wanted threads || is_wanted keep; then make -s -C "$top" build >/dev/null; fi
    if is_wanted kernels; then (cd "$top/crates/bench_kernels" && rt run >/dev/null 2>&1); fi
    if is_wanted segments; then (cd "$top/crates/bench_store" && rt run >/dev/null 2>&1); fi
    if is_wanted latches; then (cd "$top/crates/bench_latches" && rt run >/dev/null 2>&1); fi
    if is_wanted engine || is_wanted churn; then (cd "$top/crates/bench_engine" && rt run >/dev/null 2>&1); fi
    if is_wanted workers; then (cd "$top/crates/bench_workers" && rt run >/dev/null 2>&1); fi
    if is_wanted shared; then (cd "$top/crates/bench_shared" && rt run >/dev/null 2>&1); fi
}

build
work=$(mktemp -d)
trap 'rm -rf "$work"' EXIT
cd "$work"

echo "$(getconf _NPROCESSORS_ONLN) cores, load $(load); $runs runs of each, seed $seed"
echo
if is_wanted runs; then print_runs; fi
if is_wanted serial; then print_serial; fi
if is_wanted kernels; then
    print_kernels 3500000 'power-law graph of 1,000,000 vertices and 3,500,000 weighted edges'
    print_kernels 0 'path of 1,000,000 vertices with weights'
fi
if is_wanted segments; then print_segments; fi
if is_wanted latches; then print_latches; fi
if is_wanted engine; then
    print_engine 0 'each pair of whose vertices has the same chance'
    print_engine 1 'drawn by R-MAT'
fi
if is_wanted shared; then print_shared; fi
if is_wanted workers; then print_workers; fi
if is_wanted threads; then print_threads; fi
if is_wanted keep; then print_keep; fi
if is_wanted churn; then
    print_churn 0 'no other transaction is open'
    print_churn 1 'one of another pass stays open'
fi

# teseo-logged: its folder and its log, what it says of each refusal, and its status where lines weren't done.

# Says a case's name, runs its words, and says the status. Only the names of temporary folders are hidden.
try() {
    echo "== $1"
    shift
    rm -rf out
    teseo-logged --into out "$@" 2>&1 | sed "s#$PWD/##g; s#$PWD#HERE#g"
    echo "status ${PIPESTATUS[0]}"
}

# A run with this text as the edge file, and these options.
with_edges() {
    printf "$2" >e2
    try "$1" run --vertices v --edges e2 --journal j ${3:-} s1
}

# A run with this text as the script, and these options.
with_script() {
    printf "$2" >s2
    try "$1" run --vertices v --edges e --journal j ${3:-} s2
}

printf '1\n2\n3\n' >v
printf '1 2 4.5\n2 3 1\n' >e
printf 'begin\ncount\nbfs 1 hops\nset 1 2 3\ncommit\n' >s1
try 'a run' run --vertices v --edges e --weights 2 --directed --journal j s1
ls out
sed -E "s/sha256 [0-9a-f]{64}/sha256 SUM/; s/^(begun|seconds): .*/\1: .. /; s/^(program: ).*/\1.. /; s#$PWD/##g" out/run.txt
teseo-logged --into out run --vertices v --edges e --journal j s1
echo "status $?"
printf 'begin\nset 1 2 4\nedge 1 2\ncommit\n' >s3
try 'lines that are not done' run --vertices v --edges e --journal j s1 s3
try 'the same, to be seen in the status' --undone run --vertices v --edges e --journal j s1 s3
printf 'begin\nweight 2 3\nset 1 2 5\ncommit\n' >s5
printf 'begin\nweight 1 2\nset 2 3 5\ncommit\n' >s6
try 'a commit that would leave no serial order' --undone run --serial --vertices v --edges e --journal j s5 s6
printf 'begin\nneighbours 9\nweight 1 3\nbfs 9 o\ncommit\n' >s4
try 'a run on threads' run --threads 2 --vertices v --edges e --journal j s1 s4
try 'commits that are kept' run --keep k --vertices v --edges e --journal j s1
ls out
echo '== questions about what is not there are answered'
teseo-logged --into asked --undone run --vertices v --edges e --journal j s4
echo "status $?"
try 'a script that is a pipe' run --vertices v --edges e --journal j <(cat s1) | sed -E 's/[0-9]+\.report/N.report/'
try 'a vertex file that is a pipe' run --vertices <(cat v) --edges e --journal j s1

with_edges 'commas' '1,2\n'
with_edges 'a header' 'from to\n1 2\n'
with_edges 'a byte-order mark' '\357\273\2771 2\n'
with_edges 'gz' '\037\213\010\000xx\n'
with_edges 'UTF-16' '\377\3761\0 \0002\0\n\0'
with_edges 'a no-break space' '1\302\2402\n'
with_edges 'an indented comment' '1 2\n # c d\n'
with_edges 'an exponent' '1 2 1e3\n' --weights=2
with_edges 'an id as pandas writes it' '1.0 2.0\n'
with_edges 'weights that are missing' '1 2\n' --weights=2
with_edges 'further fields' '1 2 3 4\n'
with_edges 'both ways' '1 2 1\n2 1 2\n' --weights=0
with_edges 'twice' '1 2\n1 2\n' --directed
with_edges 'a loop' '1 1\n'
with_edges 'an unknown end' '1 9\n'
with_edges 'digits too many' '1 2 1.234\n' --weights=2
with_script 'a command otherwise spelled' 'begin\nneighbors 1\ncommit\n'
with_script 'capitals' 'BEGIN\ncommit\n'
with_script 'weights with a point' 'begin\nset 1 2 1.5\ncommit\n' --weights=2
with_script 'a comment behind' 'begin\ncount # all\ncommit\n'
with_script 'no begin' 'count\n'
with_script 'no commit' 'begin\ncount\n'
with_script 'no name' 'begin\nwcc\ncommit\n'
with_script 'a result in no folder' 'begin\nwcc out/x\ncommit\n'
{ echo begin && seq -f 'vertex %g' 4 300 && echo commit; } >s2
try 'no place' run --vertices v --edges e --journal j --leaves 1 s2
try 'no such file' run --vertices gone --edges e --journal j s1
try 'a folder' run --vertices . --edges e --journal j s1
try 'no such script' run --vertices v --edges e --journal j gone
try 'no words' run
try 'words that are wrong' run --vertices v --edge e --weights 2.5 s1
try 'numbers and names' run --vertices v --edges v --journal j --weights 12 s1 s1
try 'threads and turns' run --vertices v --edges e --journal j --threads 33 --schedule t --serial s1
try 'kept and on threads' run --vertices v --edges e --journal j --keep j --threads 2 s1
try 'no text' run --vertices v --edges e --journal
try 'another subcommand' make --seed 1

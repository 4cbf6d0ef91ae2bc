# fold: what it refuses leaves all files as they were, and what it warns of is no refusal.

# Says a case's name, runs its words, and says the status and which files changed.
try() {
    echo "== $1"
    shift
    sha256sum ./* >../before
    "$@"
    echo "status $?"
    sha256sum ./* | diff ../before - | sed -n 's/^\([<>]\) .*\.\//\1 /p'
}

printf '1\n2\n3\n' >v
printf '1 2 4.5\n2 3 1\n' >e
printf 'begin\nedge 1 3 200\ncommit\n' >s
teseo run --vertices v --edges e --weights 2 --journal j s
ln -s j link
ln j same

try 'the vertex file is the journal' teseo-fold j j out.e --weights 2
try 'the edge file is the journal, otherwise spelled' teseo-fold j out.v ./j --weights 2
try 'both files are one' teseo-fold j out out --weights 2
try 'both are one that is not there yet, otherwise spelled' teseo-fold j out ./out --weights 2
try 'the vertex file is a link to the journal' teseo-fold j link out.e --weights 2
try 'the edge file is another name of the journal' teseo-fold j out.v same --weights 2
try 'a commit beyond the last' teseo-fold j out.v out.e --weights 2 --upto 3
try 'a journal that is not there' teseo-fold gone out.v out.e
try 'a folder that is not there' teseo-fold j out.v gone/out.e --weights 2
try 'the weights forgotten' teseo-fold j out.v out.e
cat out.e
rm out.*
try 'all of it' teseo-fold j out.v out.e --weights 2
cat out.e
try 'up to the load, over what is there' teseo-fold j out.v out.e --weights 2 --upto 1
cat out.e
rm out.*

printf '1 2\n2 3\n' >e
teseo run --vertices v --edges e --journal j s
try 'weights of a run without' teseo-fold j out.v out.e --weights 2
printf '1 2\n2 1\n' >e
teseo run --directed --vertices v --edges e --journal j s
try 'the directions forgotten' teseo-fold j out.v out.e
printf '1 2\n2 3\n' >e
printf 'begin\ndrop 3 2\ncommit\n' >s
teseo run --vertices v --edges e --journal j s
try 'directions of a run without' teseo-fold j out.v out.e --directed

{
    echo 'commit 1 start 0 by 0.1'
    seq -f 'vertex %.0f' 2797000
    seq 2796999 | awk '$1 == 2790000 { print "commit 2 start 1 by 1.1" } { print "edge", $1, $1 + 1, 1 }'
} >grown
echo '== more rows than a load takes'
teseo-fold grown /dev/null out.e

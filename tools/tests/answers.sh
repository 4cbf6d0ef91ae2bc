# teseo-answers, on a run with conflicts of both kinds, refused writes, and a transaction that aborts.

printf '1\n2\n3\n4\n' >v
printf '1 2\n2 3\n' >e
cat >a <<'END'
# the first clerk
begin
set 1 2 9

commit
begin
edge 1 2
edge 3 3
edge 1 7
vertex 8
vertex 8
commit
begin
set 2 3 4
abort
END
cat >b <<'END'
begin
count
set 2 1 8
count
commit
begin
	 
vertex 5
unvertex 5
unvertex 2
drop 2 3
commit
END
echo '== a run'
teseo run --vertices v --edges e --journal j a b
echo '== each command with its answer'
teseo-answers a b
echo '== what was not done, by the journal'
teseo-answers a b --journal j --lost
echo '== without the journal'
teseo-answers a b --lost
echo '== a script to try again'
teseo-answers a b --journal j --retry again
cat again
echo '== who wrote an edge'
teseo-answers a b --journal j --edge 2 1
echo '== a conflict with a transaction that took itself back'
printf 'begin\nset 1 2 5\ncount\ncount\nabort\n' >c
printf 'begin\ncount\nset 1 2 6\ncommit\n' >d
teseo run --vertices v --edges e --journal j2 c d
teseo-answers c d --journal j2 --lost
echo '== a conflict with a later commit, and an edge whose end is removed'
printf 'begin\nunvertex 4\ncommit\n' >f
printf 'begin\ncount\ncount\nedge 4 1\ncommit\n' >g
teseo run --vertices v --edges e --journal j3 f g
teseo-answers f g --journal j3 --lost
echo '== commits that would leave no serial order'
printf 'begin\nset 1 2 7\nedge 3 4\nvertex 9\ncommit\n' >h
printf 'begin\nweight 2 1\nvertex 11\nvertex 12\ncommit\n' >k
printf 'begin\nneighbours 4\nvertex 13\nvertex 14\ncommit\n' >l
printf 'begin\nset 2 3 5\nvertex 15\nvertex 16\ncommit\n' >m
printf 'begin\nedge 9 1\nvertex 17\nvertex 18\ncommit\n' >n
printf 'begin\ncount\nvertex 19\nvertex 20\ncommit\n' >o
teseo run --serial --vertices v --edges e --journal j5 h k l m n o
teseo-answers h k l m n o --journal j5 --lost
echo '== the same with directions, where an arc stands with its source, and who removes a vertex looks at all arcs'
printf 'begin\nset 1 2 7\nvertex 21\nvertex 22\ncommit\n' >p
printf 'begin\nneighbours 2\nvertex 23\nvertex 24\ncommit\n' >q
printf 'begin\nunvertex 4\nvertex 25\nvertex 26\ncommit\n' >r
teseo run --serial --directed --vertices v --edges e --journal j6 p q r
teseo-answers p q r --directed --journal j6 --lost
echo '== no place'
{ echo begin; seq 1001 1215 | sed 's/^/vertex /'; echo commit; } >grow
teseo run --vertices v --edges e --journal j4 --leaves 1 grow
teseo-answers grow --journal j4 --lost
echo '== words and files that do not fit'
teseo-answers b a --lost; echo "status $?"
head -n 2 a.report >x.report && cp a x && teseo-answers x; echo "status $?"
teseo-answers gone; echo "status $?"
teseo-answers f g --journal j4 --lost; echo "status $?"
teseo-answers a b --retry a; echo "status $?"
teseo-answers a b --journal v --lost; echo "status $?"

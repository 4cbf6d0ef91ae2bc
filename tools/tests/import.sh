# teseo-import and teseo-names, on small tables of each kind.

# Says a case's name, and imports by its words into `g`, which is shown where it is made.
try() {
    echo "== $1"
    shift
    rm -rf g
    teseo-import --out g "$@"
    echo "status $?"
    [ ! -d g ] || (cd g && for file in *; do echo "-- $file" && cat "$file"; done)
}

printf 'payer,payee,euros\nann,bob,4.50\nbob,"van, Carl",1\nann,bob,2.25\n"van, Carl",ann,.5\ncarl,carl,3\n' >plain.csv
try 'a header and quotes, repeats summed, loops dropped' \
    plain.csv --directed --weight euros --digits 2 --repeated sum --loops drop
try 'repeats: the least' plain.csv --directed --weight 3 --digits 2 --repeated least --loops drop
try 'repeats: the most' plain.csv --directed --weight 3 --digits 2 --repeated most --loops drop
try 'repeats: the first, without directions and weights' plain.csv --repeated first --loops drop
try 'how many lines an edge has' plain.csv --directed --repeated sum --loops drop
try 'repeats and loops refused' plain.csv --directed --weight euros --digits 2
try 'digits rounded, and counted' plain.csv --weight euros --digits 1 --repeated first --loops drop

printf 'id;name\na1;Ann\nb2;Bob\nc3;Carl\n' >people.csv
printf 'from;to;sum\na1;b2;1950,95\nb2;d4;2\n' >pay.csv
try 'semicolons and a decimal comma, unknown ends added' \
    pay.csv --vertices people.csv --id id --weight sum --decimal , --digits 2 --unknown add
try 'unknown ends dropped' pay.csv --vertices people.csv --weight sum --decimal , --digits 2 --unknown drop
try 'unknown ends refused' pay.csv --vertices people.csv --weight sum --decimal , --digits 2
try 'the wrong decimal sign' pay.csv --weight sum --digits 2

printf 'a\tb\t1\nb\tc\t2\n' >tabs
try 'tabs and no header' tabs --no-header --weight 3
printf '# a b\n1 2\n' | sed 1d | gzip >blanks.gz
try 'blanks and gz' blanks.gz --no-header --keep-ids
printf '\357\273\277a,b\r\nx,y\r\n' >mark.csv
try 'a byte-order mark and carriage returns' mark.csv --source a --target b
printf 'a,b\nx,\303\244\n' | iconv -t UTF-16 >wide.csv
try 'UTF-16' wide.csv
printf 'a,b\nx,\344\n' >latin.csv
try 'another encoding, not said' latin.csv
try 'another encoding' latin.csv --encoding latin-1
try 'standard input' - < <(printf 'a|b\nx|y\n')
printf 'a,b\n7,008\n7.0,9\n' >numbers.csv
try 'ids that are numbers' numbers.csv --keep-ids
printf 'a,b\n7,x\n7,9223372036854775807\n' >texts.csv
try 'ids that are not' texts.csv --keep-ids
printf 'a,b,w\nx,y,-1\nx,z,NaN\nx,u,1e3\nx,v,\nx\n,y,1\n\n"x\n1",y,1,2\nx,w,4294967296\n' >odd.csv
try 'odd weights and lines' odd.csv --weight w
printf 'a,b,w\nx,y,1e3\nx,z,+2\nx,u, 7 \n' >spelled.csv
try 'weights spelled otherwise' spelled.csv --weight w
try 'a column that is not there' plain.csv --weight sum
try 'a table that is not there' gone.csv
printf '\037\213\010\000' >spoiled.gz
try 'a gz file that is cut off' spoiled.gz
try 'an empty table' /dev/null
echo '== many lines, some of them quoted or over two lines, as awk reckons them'
awk 'BEGIN {
    print "from,to,sum"
    for (line = 1; line <= 20000; line++) {
        payer = "a" line * 7919 % 53
        if (line > 5000 && line < 6000) payer = "\"" payer "\\n\""
        printf "%s,b%d,%d.%02d\n", payer, line * 104729 % 59, line % 1000, line % 100
    }
}' | sed 's/\\n/\n/' >many.csv
teseo-import many.csv --out m --directed --weight sum --digits 2 --repeated sum
tr -d '"' <many.csv | awk -F, '
    function number(id) { if (!(id in numbers)) numbers[id] = ++count; return numbers[id] }
    NR == 1 { next }
    NF == 1 { begun = $0; next }
    {
        payer = number(begun $1); begun = ""
        edge = payer " " number($2)
        if (!(edge in cents)) edges[++edge_count] = edge
        cents[edge] += int($3 * 100 + 0.5)
    }
    END { for (at = 1; at <= edge_count; at++) printf "%s %d.%02d\n", edges[at], cents[edges[at]] / 100, cents[edges[at]] % 100 }
' | cmp - m/e && echo same

echo '== a source is not written over'
mkdir h && printf 'a b\n' >h/e
teseo-import h/e --out h
echo "status $?"
cat h/e

echo '== from a table to names'
teseo-import plain.csv --out g --directed --weight euros --digits 2 --repeated sum --loops drop
printf 'begin\nsssp 1 ways\nwcc parts\ncommit\n' >script
teseo run --directed --weights 2 --vertices g/v --edges g/e --journal journal script
teseo-names g/ids.csv ways --digits 2
teseo-names g/ids.csv parts --values names
teseo-names g/ids.csv ways parts --none -
echo '== what is no result, no table of ids, and not there'
teseo-names g/ids.csv script
teseo-names plain.csv ways
teseo-names g/ids.csv gone

#!/usr/bin/env bash
# Runs the example, and leaves in a folder what each step says and writes: the import, the clerks' run, who lost, the fold,
# and the second run with what is tried again.
#
#     run.sh FOLDER COMMAND...
#
# FOLDER is there and empty. COMMAND gets the words of the run behind its own: `teseo`, or `rt try --`. The run names
# each file from the root on, since the command may run in another folder; the tools run in FOLDER.
set -euo pipefail
[ $# -ge 2 ] || { echo "call it as $0 FOLDER COMMAND.., such as: $0 out teseo"; exit 2; }
example=$(cd "$(dirname "$0")" && pwd)
folder=$(cd "$1" && pwd)
tools=$example/../../tools
fold=$example/../handoff/fold
shift
make -s -C "$fold"

cp "$example"/{accounts.csv,transfers.csv,clerk1,clerk2,clerk3} "$folder"
sed -E "s#^(sssp [0-9]+|wcc) #&$folder/#" "$example/look" >"$folder/look"
in_folder() { (cd "$folder" && "$@"); }

in_folder "$tools/teseo-import" transfers.csv --vertices accounts.csv --out . --directed --weight euros --decimal , \
    --digits 2 --repeated sum --loops drop >"$folder/import.said"
"$@" run --directed --weights 2 --vertices "$folder/v" --edges "$folder/e" --journal "$folder/journal" \
    "$folder"/clerk1 "$folder"/clerk2 "$folder"/clerk3 >"$folder/said"
in_folder "$tools/teseo-answers" clerk1 clerk2 clerk3 --directed --journal journal --lost --retry again >"$folder/lost"

in_folder "$fold/out/fold" journal now.v now.e --directed --weights 2 >"$folder/fold.said"
"$@" run --directed --weights 2 --vertices "$folder/now.v" --edges "$folder/now.e" --journal "$folder/journal2" \
    "$folder/again" "$folder/look" >"$folder/second.said"
in_folder "$tools/teseo-answers" again look --directed --journal journal2 --lost >"$folder/second.lost"
in_folder "$tools/teseo-names" ids.csv ways --digits 2 >"$folder/ways.csv"
rm "$folder"/{accounts.csv,transfers.csv,clerk1,clerk2,clerk3,look}

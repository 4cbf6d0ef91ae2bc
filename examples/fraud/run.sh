#!/usr/bin/env bash
# Runs the example, and leaves what the run says and writes in a folder: said, bank.report, desk.report, journal, and
# parts, groups and trail, each before and after.
#
#     run.sh FOLDER COMMAND...
#
# FOLDER is there and empty. COMMAND gets the words of the run behind its own: `teseo`, or `rt try --`. The run names
# each file from the root on, since the command may run in another folder.
set -euo pipefail
[ $# -ge 2 ] || { echo "call it as $0 FOLDER COMMAND.., such as: $0 out teseo"; exit 2; }
example=$(cd "$(dirname "$0")" && pwd)
folder=$(cd "$1" && pwd)
shift

cp "$example/bank" "$folder"
sed -E "s#^(bfs [0-9]+|cdlp [0-9]+|wcc) #&$folder/#" "$example/desk" >"$folder/desk"
"$@" run --directed --weights 2 --vertices "$example/accounts.v" --edges "$example/transfers.e" \
    --journal "$folder/journal" --schedule "$example/turns" "$folder/bank" "$folder/desk" >"$folder/said"
rm "$folder/bank" "$folder/desk"

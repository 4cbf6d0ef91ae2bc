#!/usr/bin/env bash
# Runs the desk on a day's transfers, and leaves in a folder what it says at the end: said. What its watcher says meanwhile
# is another thing in each run, and is left out.
#
#     run.sh FOLDER COMMAND...
#
# FOLDER is there and empty. COMMAND gets the words of the run after its own: `desk`, or `rt try --`.
set -euo pipefail
[ $# -ge 2 ] || { echo "call it as $0 FOLDER COMMAND.., such as: $0 out desk"; exit 2; }
example=$(cd "$(dirname "$0")" && pwd)
folder=$(cd "$1" && pwd)
shift

"$@" "$example/transfers" >"$folder/said" 2>/dev/null

#!/usr/bin/env bash
# Runs an example in a temporary folder, shows what the run says and the first lines of what it writes, and compares all
# of it with what is stored. The program is the one that `make build` has left, and else what `rt try` compiles.
#
#     demo.sh EXAMPLE
#
# EXAMPLE is a folder beside this file with a run.sh and an expected/.
set -euo pipefail
shopt -s extglob
examples=$(cd "$(dirname "$0")" && pwd)
example=$1
work=$(mktemp -d)
trap 'rm -rf "$work"' EXIT
mkdir "$work/outputs"

[ -d "$examples/$example/expected" ] || {
    echo "There is no example $example. There are: $(cd "$examples" && echo */expected | sed 's|/expected||g')"
    exit 1
}
crate=teseo
[ "$example" != desk ] || crate=desk
command=("$(cd "$examples/../crates/$crate" && pwd)/out/$crate")
if [ -x "${command[0]}" ]; then
    echo "This runs the program that 'make build' has proved and built."
else
    echo "This runs the checked build and not the proved one (that is 'make build'). Compiling takes a minute."
    command=(rt try --)
fi
cd "$examples/../crates/$crate"
"$examples/$example/run.sh" "$work/outputs" "${command[@]}" 2>"$work/told" || {
    cat "$work/outputs/"*said "$work/told"
    exit 1
}

cd "$work/outputs"
for output in *said *.report !(*said|*.report); do
    lines=$(wc -l <"$output")
    printf '\n== %s\n' "$output"
    head -n 5 "$output"
    [ "$lines" -le 5 ] || echo ".. $lines lines"
done

echo
diff -r "$examples/$example/expected" "$work/outputs"
echo "All of it is what examples/$example/expected has. The page is examples/$example/README.md."

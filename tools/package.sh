#!/usr/bin/env bash
# Packs the built program with its manual page, completion, tools and licence, the checksum of each file, and the kit's
# version, into teseo-COMMIT-x86_64.tar.gz at the top of the repository. Whoever unpacks it needs no kit.
set -euo pipefail
cd "$(dirname "$0")/.."
name=teseo-$(git rev-parse --short HEAD)-$(uname -m)
work=$(mktemp -d)
trap 'rm -rf "$work"' EXIT

make -s -C examples/handoff/fold
install -D -m 755 crates/teseo/out/teseo "$work/$name/bin/teseo"
install -m 755 examples/handoff/fold/out/fold "$work/$name/bin/teseo-fold"
install -m 755 tools/teseo-* "$work/$name/bin"
install -D -m 644 docs/teseo.1 "$work/$name/share/man/man1/teseo.1"
install -D -m 644 docs/teseo.bash "$work/$name/share/bash-completion/completions/teseo"
install -m 644 LICENSE "$work/$name/LICENSE"
rt version >"$work/$name/KIT"
git rev-parse HEAD >"$work/$name/COMMIT"
(cd "$work/$name" && find . -type f ! -name SHA256SUMS -print0 | sort -z | xargs -0 sha256sum >SHA256SUMS)
tar -C "$work" --owner=0 --group=0 -czf "$name.tar.gz" "$name"
echo "$name.tar.gz"

#!/bin/sh
# Times the program on builds: one of each construction over 262,144 words (`uuv` over two times 512, `juxtapose` over two times 1,024,
# which is as many as fit), a chain of 40 builds of 16,384 words, a chain of 400 of one word, a tree of 1,000 builds, and builds that are
# refused over a large coset piece. What an empty session takes is its table. Beside it stands `plain_builds.rs`, which answers the same
# sessions and keeps no table: the least processor seconds of three runs each, and the ratio. Ends with 1 where the two don't write the same.
# `builds.sh PROGRAM` measures that program in place of `../code_tables`. Wants `rustc` and python3.
set -e
here=$(CDPATH= cd -- "$(dirname -- "$0")" && pwd)
program=${1:-$here/../code_tables}
work=$(mktemp -d)
trap 'rm -rf "$work"' EXIT
rustc --edition 2021 -O "$here/plain_builds.rs" -o "$work/plain"
"$program" session </dev/null
for name in empty lone_part lengthen append_one parity puncture shorten translate complement select uuv juxtapose trim translations lone_words tree \
    refused_size refused_distance refused_few; do
    python3 "$here/sessions.py" "$name" >"$work/$name"
    python3 "$here/compare.py" "$name" "$work/$name" "$program session" "$work/plain"
done

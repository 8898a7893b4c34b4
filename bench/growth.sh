#!/bin/sh
# How the program's time grows: processor seconds, the least of three runs, for sessions of a size n, of 2n and of 4n, each less those of an empty
# session, and how much longer each takes than the one before. 2 is as long as the input. Pieces, parts in a chain, words of builds and of a
# dump, builds over one listed code, explanations over builds, lines, and lines of a derivation that count sum classes. `growth.sh PROGRAM`
# measures that program in place of `../code_tables`. Wants python3.
set -e
here=$(CDPATH= cd -- "$(dirname -- "$0")" && pwd)
program=${1:-$here/../code_tables}
work=$(mktemp -d)
trap 'rm -rf "$work"' EXIT
"$program" session </dev/null
: >"$work/empty"
for sizes in "pieces 250" "withdrawals 250" "lone_words 200" "translations 10" "tree 250" "fan 20" "explained_builds 240" "words_of_a_build 65536" \
    "dumped_words 65536" "refused_distance 50" "feeds 4194304" "shows 100000" "sum_class_lines 500 verify"; do
    set -- $sizes
    for times in 1 2 4; do
        python3 "$here/sessions.py" "$1" $(($2 * times)) >"$work/$times"
    done
    python3 "$here/compare.py" --growth "$1 $2" "$program ${3:-session}" "$work/empty" "$work/1" "$work/2" "$work/4"
done

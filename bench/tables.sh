#!/bin/sh
# Times the program on the 28 tables of a session without evidence, and on 200 submissions, each followed by a `show`, of which 80
# improve the table. Beside it stands a plain program in Rust that answers the same sessions: processor seconds of five runs each. Ends with 1
# where the two don't write the same. Wants `rustc`.
set -e
here=$(CDPATH= cd -- "$(dirname -- "$0")" && pwd)
work=$(mktemp -d)
trap 'rm -rf "$work"' EXIT
rustc -O "$here/plain_table.rs" -o "$work/plain"
"$work/plain" tables >"$work/tables"
"$work/plain" pieces "$here/../examples/library/1-linear.session" >"$work/pieces"
"$here/../code_tables" session </dev/null

for name in tables pieces; do
    "$here/../code_tables" session <"$work/$name" >"$work/$name.proved"
    "$work/plain" session <"$work/$name" >"$work/$name.plain"
    cmp "$work/$name.proved" "$work/$name.plain"
done

# Processor seconds of a command over a file.
seconds() {
    file=$1
    shift
    (TIMEFORMAT=%U; export TIMEFORMAT; bash -c 'time "$@" >/dev/null' bash "$@" <"$file") 2>&1 | tail -n 1
}

for turn in 1 2 3 4 5; do
    for name in tables pieces; do
        echo "$name: code_tables $(seconds "$work/$name" "$here/../code_tables" session), plain $(seconds "$work/$name" "$work/plain" session)"
    done
done

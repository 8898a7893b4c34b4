#!/bin/sh
# Times the program on 64 MiB of line feeds, on 64 MiB of `show 10 6`, and on the documents of `close_pairs.rs`: 16,384 words of which no
# two, or the last two, are close, as many of one weight, and cosets. Beside it stand plain programs in Rust that do the same: processor
# seconds of three runs each. Wants `rustc`.
set -e
here=$(CDPATH= cd -- "$(dirname -- "$0")" && pwd)
work=$(mktemp -d)
trap 'rm -rf "$work"' EXIT
rustc -O "$here/plain_session.rs" -o "$work/plain"
rustc -O "$here/close_pairs.rs" -o "$work/pairs"
head -c 67108864 /dev/zero | tr '\0' '\n' >"$work/feeds"
yes 'show 10 6' | head -c 67108860 >"$work/shows"
for name in session late weighted cosets; do
    "$work/pairs" "$name" >"$work/$name"
done
"$here/../code_tables" session </dev/null

# Processor seconds of a command over a file.
seconds() {
    file=$1
    shift
    (TIMEFORMAT=%U; export TIMEFORMAT; bash -c 'time "$@" >/dev/null' bash "$@" <"$file") 2>&1 | tail -n 1
}

for turn in 1 2 3; do
    for name in feeds shows; do
        echo "$name: code_tables $(seconds "$work/$name" "$here/../code_tables" session), plain $(seconds "$work/$name" "$work/plain")"
    done
    for name in session late weighted cosets; do
        echo "$name: code_tables $(seconds "$work/$name" "$here/../code_tables" session), $("$work/pairs" "$name-loop")"
    done
done

#!/bin/sh
# Times the program on a document of 16,384 words beside a plain double loop in Rust over the same words and the program's own search written
# plainly, as `rustc -O` builds them and as it does for the processor that Rattle builds for. Where valgrind is there, prints also how many
# instructions each takes, start and input included. `close_pairs.sh PROGRAM` measures that program in place of `../code_tables`. Wants `rustc`.
set -e
here=$(cd "$(dirname "$0")" && pwd)
program=${1:-$here/../code_tables}
work=$(mktemp -d)
trap 'rm -rf "$work"' EXIT
rustc -O "$here/close_pairs.rs" -o "$work/plain"
rustc -O -C target-cpu=x86-64-v2 "$here/close_pairs.rs" -o "$work/v2"
"$work/plain" session >"$work/session"
"$program" session </dev/null
for turn in 1 2 3 4 5; do
    echo "turn $turn"
    "$work/plain" session-loop
    "$work/v2" session-loop
    "$work/plain" session-rows
    "$work/v2" session-rows
    start=$(date +%s%N)
    "$program" session <"$work/session"
    end=$(date +%s%N)
    echo "code_tables: $(((end - start) / 10000000)) hundredths of a second"
done
command -v valgrind >/dev/null || exit 0
instructions() {
    name=$1
    shift
    valgrind --tool=callgrind --callgrind-out-file=/dev/null "$@" 2>&1 >/dev/null | sed -n "s/.*refs: */$name: /p"
}
: >"$work/empty"
instructions "instructions of the plain rows" "$work/v2" session-rows
if [ -x "$here/../crates/ct_program/out/ct_program" ] && [ $# -eq 0 ]; then
    program=$here/../crates/ct_program/out/ct_program
fi
instructions "instructions of the program" "$program" session <"$work/session"
instructions "instructions of an empty session" "$program" session <"$work/empty"

#!/bin/sh
# Times the program on sessions that make a table and change it, beside `closing.rs`, a plain program in Rust that closes a table of its
# own in the same way, by slots. An empty session makes one table; the others hand in a code of two words, which improves nothing, or the
# code of Golay, and take it out again, 100 times; the program also reads and checks what is handed in. Processor seconds of twenty runs,
# then of one. At the end stands what `closing.rs` says of each step alone. Wants `rustc`, and bash for its `time`.
set -e
here=$(CDPATH= cd -- "$(dirname -- "$0")" && pwd)
work=$(mktemp -d)
trap 'rm -rf "$work"' EXIT
rustc --edition 2021 -O "$here/closing.rs" -o "$work/plain"
"$here/../code_tables" session </dev/null >/dev/null

cat >"$work/two-words" <<'END'
submit piece
kind = "cosets"
n = 5
d = 3
basis = ["11111"]
representatives = ["00000"]
end
withdraw piece
END

# The code of Golay, without the lines that show what it gives.
sed -n '/^submit/,/^end$/p' "$here/../examples/golay.session" >"$work/golay-once"
echo 'withdraw golay' >>"$work/golay-once"

: >"$work/empty"
for turn in $(seq 100); do
    cat "$work/two-words" >>"$work/nothing"
    cat "$work/golay-once" >>"$work/golay"
done

# Processor seconds of a command over a file, so many times.
seconds() {
    count=$1
    file=$2
    shift 2
    (
        TIMEFORMAT=%U
        export TIMEFORMAT
        bash -c 'time for turn in $(seq "$0"); do "${@:2}" <"$1" >/dev/null; done' "$count" "$file" "$@"
    ) 2>&1 | tail -n 1
}

for turn in 1 2 3; do
    echo "empty, 20 runs: code_tables $(seconds 20 "$work/empty" "$here/../code_tables" session), plain $(seconds 20 "$work/empty" "$work/plain" empty 1)"
    for name in nothing golay; do
        echo "$name: code_tables $(seconds 1 "$work/$name" "$here/../code_tables" session), plain $(seconds 1 "$work/$name" "$work/plain" "$name" 100)"
    done
done
"$work/plain"

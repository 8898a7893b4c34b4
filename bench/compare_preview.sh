#!/bin/sh
# Compares what `./preview session` and the proved program write for each session of examples/, and their statuses. Ends with 1 where they
# differ. Some minutes; the proved program is built first where it isn't there.
here=$(CDPATH= cd -- "$(dirname -- "$0")/.." && pwd)
work=$(mktemp -d)
trap 'rm -rf "$work"' EXIT
same=0
differ=0
for session in "$here"/examples/*.session; do
    "$here/code_tables" session <"$session" >"$work/proved"
    proved=$?
    [ "$proved" -ne 125 ] || exit 1
    "$here/preview" session <"$session" >"$work/preview" 2>"$work/said"
    preview=$?
    if [ "$preview" -eq "$proved" ] && cmp -s "$work/proved" "$work/preview"; then
        same=$((same + 1))
    else
        differ=$((differ + 1))
        echo "${session##*/}: the proved program ended with $proved, the preview with $preview"
        diff "$work/proved" "$work/preview" | head -n 5
        cat "$work/said"
    fi
done
echo "$same the same, $differ not"
[ "$differ" -eq 0 ] && [ "$same" -gt 0 ]

#!/bin/sh
# Tries `./code_tables` with a false `rt` in a copy of the repository: what it builds, when it builds again, and how it ends. Says each case,
# and ends with 1 where one fails. Takes a minute and proves nothing.
here=$(CDPATH= cd -- "$(dirname -- "$0")/.." && pwd)
work=$(mktemp -d)
trap 'rm -rf "$work"' EXIT
repository=$work/repository
mkdir -p "$work/bin" "$repository/bench" "$repository/crates"
cp "$here/code_tables" "$here/crates.txt" "$repository"
cp "$here/bench/gate.tsv" "$repository/bench"
for crate in "$here"/crates/*; do
    name=${crate##*/}
    mkdir "$repository/crates/$name"
    for part in src specs proofs; do
        [ ! -d "$crate/$part" ] || cp -R "$crate/$part" "$repository/crates/$name"
    done
done
HOME=$work/home PATH=$work/bin:$PATH
export HOME PATH work
unset XDG_CACHE_HOME CODE_TABLES

# The false rt notes its calls, reads the sources where it begins, leaves a child while it proves, and makes a program that says which
# sources it was built from. It takes $work/pause seconds, and fails where $work/fails is there. Where $work/newer is there, it is one whose
# gate keeps what it proved.
mkdir -p "$work/tools/kit"
cat >"$work/bin/rt" <<'END'
#!/bin/sh
case $1 in
version)
    echo "false-kit logic 0"
    exit
    ;;
help)
    [ ! -e "$work/newer" ] || echo "  rt ci NAME..  the same for these" >&2
    exit
    ;;
doc)
    echo "$work/tools/kit/START-HERE.md"
    exit
    ;;
esac
echo "$*" >>"$work/calls"
prove() {
    find .. -path '*/out' -prune -o -type f -exec sha256sum {} + | sort -k 2 | sha256sum >"$work/read"
    sleep 1000 &
    echo "$! $$" >>"$work/processes"
    for name in ct_words ct_io ct_io; do
        sleep "$(cat "$work/pause")"
        echo "== $name"
    done
    kill $!
    [ ! -e "$work/fails" ]
}
build() {
    mkdir -p out
    printf '#!/bin/sh\ncat <<END\n%s\nEND\n' "$(cat "$work/read")" >out/ct_program
    chmod "$(cat "$work/mode")" out/ct_program
}
case $1 in
all) prove ;;
run) build ;;
ci) cd crates/ct_program && prove && build ;;
esac
END
chmod +x "$work/bin/rt"
echo 0.1 >"$work/pause"
echo 755 >"$work/mode"
source=$repository/crates/ct_io/src/lib.rt
program=$repository/crates/ct_program/out/ct_program

# What a program says that is built from the sources as they stand.
wanted() {
    (
        cd "$repository/crates" || exit
        awk -F: '/^ct_/ { split($1, head, " "); uses[head[1]] = $2 }
            function need(name,   words, i, n) {
                if (!(name in uses) || name in seen) return
                seen[name] = 1
                n = split(uses[name], words, " ")
                for (i = 1; i <= n; i++) need(words[i])
            }
            END { need("ct_program"); for (name in seen) print "../" name }' ../crates.txt | sed 's,^../,,' | while read -r name; do
            find "./$name" -path '*/out' -prune -o -type f -exec sha256sum {} +
        done | sed 's,  \./,  ../,' | sort -k 2 | sha256sum
    )
}

failed=0
check() {
    what=$1
    shift
    if "$@"; then echo "ok: $what"; else echo "FAILED: $what" && failed=1; fi
}

calls() {
    cat "$work/calls" 2>/dev/null | wc -l
}

# Runs the program, and says whether it ended so, said what it should, and called rt so many times.
runs() {
    before=$(calls)
    said=$("$repository/code_tables" session 2>"$work/errors")
    status=$?
    [ "$status" -eq 0 ] && [ "$said" = "$(wanted)" ] && [ $(($(calls) - before)) -eq "$1" ] ||
        { echo "status $status, $(($(calls) - before)) calls" && cat "$work/errors" && false; }
}

# Whether a run ends with this status and says nothing on standard output.
ends() {
    said=$("$repository/code_tables" session 2>"$work/errors")
    status=$?
    [ "$status" -eq "$1" ] && [ -z "$said" ] || { echo "status $status" && cat "$work/errors" && false; }
}

# Whether nothing goes on that a build began, and no log is left.
is_quiet() {
    for process in $(cat "$work/processes"); do
        ! kill -0 "$process" 2>/dev/null || return 1
    done
    [ -z "$(find "$work/home" -name log)" ]
}

# Starts a build that takes long, and sends the signal to its group, as a terminal does, or to it alone.
is_stopped_by() {
    echo >>"$source"
    echo 20 >"$work/pause"
    : >"$work/processes"
    env --default-signal=INT setsid "$repository/code_tables" session >"$work/said" 2>"$work/errors" &
    while [ ! -s "$work/processes" ]; do sleep 0.1; done
    sleep 0.5
    kill -s "$1" -- "$2$!"
    wait $!
    status=$?
    sleep 0.5
    echo 0.1 >"$work/pause"
    [ "$status" -eq "$3" ] && is_quiet || { echo "status $status" && cat "$work/errors" && false; }
}

check 'without rt the status is 125' env PATH="/usr/bin:/bin" sh -c '"$0" session 2>"$work/errors"; [ $? -eq 125 ]' "$repository/code_tables"
check 'without rt it says how a built program is named' grep -q 'set CODE_TABLES to its path' "$work/errors"
check 'the first start builds' runs 2
check 'nothing of the build is left' [ -z "$(ls -A "$work/home/.cache" 2>/dev/null)" ]
check 'the second start builds nothing' runs 0
echo '// edited' >>"$source"
check 'an edited source is built' runs 2
echo '// edited with an older time' >>"$source"
touch -d 2001-01-01 "$source"
check 'an edited source with an older time is built' runs 2
cp -p "$source" "$work/kept"
sed -i '$d' "$source"
cp -p "$work/kept" "$source"
check 'a source that is put back needs no build' runs 0
rm "$repository/crates/ct_io/proofs/Lib.antt"
check 'after a deleted source it builds' runs 2
rm -r "$repository/crates/ct_words/proofs"
check 'after a deleted folder of sources it builds' runs 2
touch "$source" "$repository/crates.txt"
check 'a touched source needs no build' runs 0
echo '// edited' >>"$repository/crates/ct_laws/src/lib.rt"
check 'a source that the program does not stand on needs no build' runs 0

# Waits until rt is called once more.
begins() {
    while [ "$(calls)" -le "$1" ]; do sleep 0.1; done
}

echo 0.8 >"$work/pause"
echo '// edited' >>"$source"
before=$(calls)
(begins "$before" && echo '// edited meanwhile' >>"$source") &
check 'a source that is edited during the build is built in the end' runs 4
wait
echo '// edited' >>"$source"
before=$(calls)
(begins "$before" && rm "$repository/crates/ct_codes/proofs/Lib.antt") &
check 'a source that is deleted during the build is not built in the end' runs 4
wait
echo '// edited' >>"$source"
before=$(calls)
(begins "$before" && cp -p "$source" "$work/kept" && echo '// edited meanwhile' >>"$source" && sleep 1 && cp -p "$work/kept" "$source") &
check 'a source that is edited and put back during the build is built as it stands' runs 2
wait
echo 0.1 >"$work/pause"

check 'Ctrl-C ends the build with 130, its processes and its log' is_stopped_by INT - 130
check 'SIGTERM ends the build with 143, its processes and its log' is_stopped_by TERM '' 143
check 'the next start builds' runs 2

touch "$work/fails"
echo '// edited' >>"$source"
check 'where nothing is proved the status is 125, and no program is run' ends 125
check 'and no log is left' [ -z "$(find "$work/home" -name log)" ]
rm "$work/fails"
echo 644 >"$work/mode"
check 'a program that was built and can not be executed is 125' ends 125
echo 755 >"$work/mode"
check 'once it can, it runs' runs 2
chmod -x "$program"
check 'a program that can not be executed is built again' runs 2
echo 'echo wrong' >"$program"
check 'a program that was replaced is built again' runs 2

touch "$work/newer"
echo '// edited' >>"$source"
check 'where the gate keeps what it proved, it builds' runs 1
check 'and nothing of the build is left' [ -z "$(ls -A "$work/home/.cache" 2>/dev/null)" ]
check 'the next start builds nothing' runs 0
check 'Ctrl-C ends such a build with 130, its processes and its log' is_stopped_by INT - 130
check 'the next start builds' runs 1
touch "$work/fails"
echo '// edited' >>"$source"
check 'where that proves nothing the status is 125, and no program is run' ends 125
rm "$work/fails" "$work/newer"
check 'an older toolchain builds as before' runs 2

rm -rf "$repository"/crates/*/out
sleep 2
for crate in "$repository"/crates/*; do mkdir "$crate/out"; done
printf '#!/bin/sh\ncat <<END\n%s\nEND\n' "$(wanted)" >"$program"
chmod +x "$program"
touch "$program.by-rattle"
check 'what a gate left is run at once' runs 0
check 'and once more' runs 0
rm "$program.sources"
echo '// edited after the gate' >>"$source"
touch -d 2001-01-01 "$source"
check 'but not after an edit' runs 2

echo '// edited' >>"$source"
echo 1 >"$work/pause"
before=$(calls)
"$repository/code_tables" session >"$work/one" 2>/dev/null &
"$repository/code_tables" session >"$work/other" 2>/dev/null &
wait
check 'of two starts at once one builds' [ "$(cat "$work/one" "$work/other" | uniq | cat - "$work/calls" | wc -l)" -eq $((before + 3)) ]
exit "$failed"

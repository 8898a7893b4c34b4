#!/bin/sh
# Makes a folder to publish out of the library: the page, the table as data with its schema, the words of the codes, the sessions, the program
# with the record of where it comes from, the Python package as a wheel that carries program and library, and as a source distribution, the
# licences, how it is cited, and the checksums of all. At the end it says how the commit is tagged.
#
#     tools/release.sh FOLDER [SESSION ..]
#
# Without sessions those of examples/library are taken. The program is that of CODE_TABLES, or the repository's own, which is built first where
# that is needed. FOLDER must not be there. Ends with 1 where a submission is refused, and leaves no folder then.
self=$(readlink -f -- "$0") && tools=${self%/*} && top=${tools%/*} || exit 1

fail() {
    echo "release: $*" >&2
    exit 1
}

[ $# -ge 1 ] || fail "give the folder to make"
folder=$1
shift
[ -n "$folder" ] && [ ! -e "$folder" ] || fail "$folder is there already"
[ $# -gt 0 ] || set -- "$top"/examples/library/*.session
PYTHONPATH=$tools python3 - "$@" <<'END' || fail "no folder is made: withdraw or mend what is refused"
import sys
from code_tables import program, sessions
try:
    text = sessions.read_sessions(sys.argv[1:])
    replies = sessions.replies(sessions.commands(text), program.run(text))
    sys.exit("\n".join(f"release: {' '.join(command.words)}: {reply[0]}" for command, reply in replies
                       if reply and reply[0].startswith("refused ") and command.words != ["ledger"]) or None)
except sessions.Refusal as refusal:
    sys.exit(f"release: refused: {refusal}")
END
mkdir -p -- "$folder/library" || fail "can't make $folder"
folder=$(cd -- "$folder" && pwd) || exit 1
trap 'rm -rf -- "$folder"' EXIT
trap 'exit 1' INT TERM HUP

cp -- "$@" "$folder/library/" || fail "can't copy the sessions"
python3 "$tools/page.py" "$@" --csv "$folder/table.csv" --json "$folder/table.json" --schema "$folder/table.schema.json" \
    --words "$folder/words" >"$folder/index.html" || fail "the page could not be made"
program=$(cd -- "$tools" && python3 -c 'from code_tables import program; print(program.file() or "")') && [ -f "$program" ] || fail "the program's file isn't known"
cp -- "$program" "$folder/code_tables" || fail "can't copy the program"
[ ! -f "$program.origin" ] || cp -- "$program.origin" "$folder/code_tables.origin" || fail "can't copy the program's record"
cp -- "$top"/LICENSE "$top"/LICENSE-APACHE "$top"/LICENSE-MIT "$top"/CITATION.cff "$top"/CHANGELOG.md "$folder/" || fail "can't copy the licences"
python3 "$tools/build_package.py" "$folder" --program "$program" >/dev/null || fail "the wheel could not be made"
cat >"$folder/README.txt" <<'END' || fail "can't write the README"
A table of bounds of A(n,d) and A(n,d,w), the greatest numbers of binary words of length n at distance d, and of weight w.

index.html         the table as a page: open it in a browser
table.csv          each entry with its bounds, the last rule of each, and the pieces that they rest on
table.json         the same with each derivation and the document of each piece
table.schema.json  the schema of table.json
words/             the words of the codes with at most 16,384 words, a line each
library/           the sessions that the table rests on: cat library/*.session | ./code_tables session
code_tables        the program that answered, for Linux on x86-64; code_tables.origin says where it comes from, where that is known
*.whl              the Python package with this program and the library: pip install *.whl, and then code-tables show 17 6
*.tar.gz           the source distribution of the package, without the program
CITATION.cff       how the program is cited; LICENSE, LICENSE-APACHE and LICENSE-MIT are its licences, CHANGELOG.md its changes
SHA256SUMS         the checksums of all of these: sha256sum -c SHA256SUMS

The page and the data show what the program answered. It is the program that is proved, and they are not.
END
(cd -- "$folder" && find . -type f ! -name SHA256SUMS | LC_ALL=C sort | xargs -d '\n' sha256sum) >"$folder.sums" && mv -- "$folder.sums" "$folder/SHA256SUMS" ||
    fail "can't write the checksums"
trap - EXIT
echo "release: $folder"
version=$(sed -n 's/^version: "\(.*\)"/\1/p' "$top/CITATION.cff")
commit=$(sed -n 's/^commit //p' "$folder/code_tables.origin" 2>/dev/null)
echo "release: to tag it: git tag -a v$version -m 'code_tables $version' ${commit:-COMMIT} && git push origin v$version"
[ -n "$commit" ] || echo "release: COMMIT is the one that the program was built from, which no record beside it names" >&2

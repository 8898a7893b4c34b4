#!/usr/bin/env python3
"""Writes how a bound can be cited: its value, what each side rests on with the sources, and what the numbers were made by.

    tools/cite.py 16 6 examples/nordstrom-robinson.session
    tools/cite.py 24 8 8 examples/library/*.session

N D, or N D W, and then the sessions, which are run one behind the other. The pieces of each side are those of its derivation, with the remarks
right above the submission and what its document cites; the rules are those of the derivation, with their sources from tools/rules.json. Then come
the checksum of the program that answered, the commit of its sources and the toolchain that proved them, both `unknown` where no record beside
the program holds them, and the hash of the sessions. The same as BibTeX stands below: an entry for the bound, and one more for each work that its
pieces cite and that its rules are from, as tools/code_tables/bibliography.toml has them; a cited text that names none of these is a `note`.
`--bibtex` gives that alone. The year is today's, or that of the variable SOURCE_DATE_EPOCH."""

import argparse
import sys

import table
from code_tables import about, bibliography, provenance
from code_tables.bibliography import latex
from code_tables.ending import ended
from code_tables.sessions import Refusal, is_entry, name_of
from table_data import today


def rules_of(derivation):
    """The rules of a derivation, in order, each once."""
    names = [words[words.index("by") + 1] for words in (line.split(" ") for line in derivation.lines)]
    return list(dict.fromkeys(names))


def side_lines(held, side, entry, value):
    """What one bound rests on, line by line."""
    yield f"{side} bound {value}"
    derivation = held.derivations.get((side, entry))
    if derivation is None:
        yield "  this build of the program gives no derivations"
        return
    for piece in table.resting(held, derivation.ids):
        size = "" if piece.size is None else f", {piece.size} words" if piece.size != 1 else ", 1 word"
        yield f"  evidence {piece.id} ({piece.kind} of {name_of(piece.entry)}{size})" + (f": {' '.join(piece.remarks)}" if piece.remarks else "")
        yield from (f"    cites {text}" for text in piece.cites)
    known = table.rules()
    for rule in rules_of(derivation):
        yield f"  rule {rule}" + (f": {known[rule][0]['source']}" if rule in known else "")


def as_text(held, entry):
    """The citation as a text."""
    low, high = held.bounds[entry]
    lines = [f"{name_of(entry)} = {low}" if low == high else f"{low} <= {name_of(entry)} <= {high}"]
    for side, value in ("lower", low), ("upper", high):
        lines += side_lines(held, side, entry, value)
    made = provenance.provenance()
    lines += [f"table      {about.TITLE}, version {about.VERSION}, {about.AUTHOR}, {today()}",
              f"program    code_tables, SHA-256 {made.program}", f"commit     {made.commit}", f"toolchain  {made.toolchain}",
              f"sessions   SHA-256 {held.session_hash}"]
    return "\n".join(lines) + "\n"


def resting(held, entry):
    """The pieces that the two bounds of an entry rest on, in ledger order."""
    return table.resting(held, [name for side in table.SIDES if (side, entry) in held.derivations for name in held.derivations[side, entry].ids])


def sources(held, entry):
    """What the pieces of an entry cite, in order, and then the works that its rules are from: works, and texts that name none."""
    known = table.rules()
    rules = [rule for side in table.SIDES if (side, entry) in held.derivations for rule in rules_of(held.derivations[side, entry])]
    works = [work for rule in rules for row in known.get(rule, ()) for work in bibliography.named(row["source"])]
    return list(dict.fromkeys([*(bibliography.cited(text) or text for text in table.cited(resting(held, entry))), *works]))


def own_bibtex(held, entry, key):
    """The entry of BibTeX for the bound itself."""
    low, high = held.bounds[entry]
    claim = f"{name_of(entry)} = {low}" if low == high else rf"{low} \le {name_of(entry)} \le {high}"
    made, pieces = provenance.provenance(), ", ".join(piece.id for piece in resting(held, entry))
    note = [f"Version {about.VERSION}", *([f"Rests on {pieces}"] if pieces else []), f"Program SHA-256 {made.program}, commit {made.commit}, toolchain {made.toolchain}",
            f"Sessions SHA-256 {held.session_hash}"]
    return bibliography.entry("misc", key, {
        "author": f"{{{latex(about.AUTHOR)}}}", "title": f"{{{latex(about.TITLE)}: ${claim}$}}", "year": today()[:4], "version": about.VERSION,
        "howpublished": latex("Output of the program code_tables"), "note": latex(". ".join(note))})


def as_bibtex(held, entry):
    """The citation as entries of BibTeX: the bound's, and one for each source."""
    key = f"code-tables-{'-'.join(map(str, entry))}"
    entries = [own_bibtex(held, entry, key)]
    for number, source in enumerate(sources(held, entry), 1):
        name = f"{key}-cited-{number}"
        entries.append(bibliography.entry("misc", name, {"key": name, "note": latex(source)}) if isinstance(source, str) else source.bibtex())
    return "\n".join(entries)


def read_entry(words):
    """The entry and the files of the command line."""
    numbers = [word for word in words[:3] if word.isdigit()]
    if len(numbers) < 2 or words[:len(numbers)] != numbers or len(words) == len(numbers):
        raise Refusal("give N D, or N D W, and then the sessions")
    entry = tuple(map(int, numbers))
    if not is_entry(entry):
        raise Refusal(f"{name_of(entry)} is no entry of the table")
    return entry, words[len(numbers):]


def main():
    parser = argparse.ArgumentParser(usage="cite.py [-h] [--bibtex] N D [W] SESSION ..", description=__doc__,
                                     formatter_class=argparse.RawDescriptionHelpFormatter)
    parser.add_argument("words", nargs="+", metavar="WORD", help="the numbers of the entry, then the sessions")
    parser.add_argument("--bibtex", action="store_true", help="write BibTeX alone")
    options = parser.parse_args()
    try:
        entry, paths = read_entry(options.words)
        asked = " ".join(map(str, entry))
        held = table.held(table.read_sessions(paths), [f"show {asked}", f"explain lower {asked}", f"explain upper {asked}"])
        sys.stdout.write(as_bibtex(held, entry) if options.bibtex else as_text(held, entry) + "\n" + as_bibtex(held, entry))
    except Refusal as refusal:
        sys.exit(f"cite: refused: {refusal}")
    for command, reply in held.refused:
        print(f"cite: {' '.join(command.words)}: {reply}", file=sys.stderr)


if __name__ == "__main__":
    ended(main)

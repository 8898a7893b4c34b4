#!/usr/bin/env python3
"""Writes the whole table over a library as data: each entry with its bounds, and why they hold.

    tools/table_data.py --csv table.csv --json table.json examples/library/*.session

The CSV file has a line for each of the entries: n, d, w (empty without weight), the two bounds, the last rule of each, and the ids of the
pieces that each rests on, with spaces between; then the published bounds as they are remembered, their technique and source, and whether each
bound is proved here or only published. The JSON file has the same with each derivation, line by line as `explain` writes it, with the
sentences and sources of the rules, and with the document of each piece, so that each bound can be checked again: `document` here puts a
derivation together, for `verify` or tools/check_derivation.py. tools/table.schema.json is its schema. `made` is the day in UTC, or that of the
variable SOURCE_DATE_EPOCH. With --comparison FILE the open entries are written beside the published values, as the tables of
examples/library/README.md. A refused submission is said on standard error, and ends with 1."""

import argparse
import csv
import datetime
import json
import os
import sys
import time

import table
from code_tables import provenance, published
from code_tables.ending import ended
from code_tables.sessions import Refusal, name_of
from table import SIDES

FORMAT = "code_tables table 2"
PUBLISHED = ("lower", "upper", "technique", "source", "note")


def ask_everything():
    """The commands that show and explain each entry."""
    return table.ask_all() + [f"explain {side} {' '.join(map(str, entry))}" for entry in table.entries() for side in SIDES]


def today():
    """The day of what is made."""
    return datetime.datetime.fromtimestamp(int(os.environ.get("SOURCE_DATE_EPOCH") or time.time()), datetime.timezone.utc).date().isoformat()


def resting_ids(held, side, entry):
    """The ids of all pieces that a bound rests on, in ledger order."""
    found = held.derivations.get((side, entry))
    return [piece.id for piece in table.resting(held, found.ids)] if found else []


def csv_rows(held):
    """The lines of the CSV file."""
    yield ["n", "d", "w", "lower", "upper", "lower_rule", "upper_rule", "lower_pieces", "upper_pieces",
           "published_lower", "published_upper", "technique", "source", "note", "lower_is", "upper_is"]
    for entry in table.entries():
        n, d, w = (*entry, "")[:3]
        rules = [held.derivations[side, entry].rule if (side, entry) in held.derivations else "" for side in SIDES]
        yield [n, d, w, *held.bounds[entry], *rules, *(" ".join(resting_ids(held, side, entry)) for side in SIDES), *known_at(held, entry).values()]


def known_at(held, entry):
    """What is known as published of an entry, and how its bounds compare with it."""
    told = published.value(*entry) or published.Value()
    return {name: getattr(told, name) for name in PUBLISHED} | dict(zip(("lower_is", "upper_is"), table.standings(entry, held.bounds[entry])))


def bound_of(held, side, entry):
    """A bound as data: its value, its last rule, its derivation and the pieces of that."""
    value = held.bounds[entry][SIDES.index(side)]
    found = held.derivations.get((side, entry))
    return {"value": value} | ({"rule": found.rule, "derivation": found.lines, "evidence": found.ids} if found else {})


def entry_of(held, entry):
    """An entry as data."""
    n, d, w = (*entry, None)[:3]
    return {"n": n, "d": d, "w": w, **{side: bound_of(held, side, entry) for side in SIDES}, "published": known_at(held, entry)}


def piece_of(piece):
    """A piece as data."""
    n, d, w = (*piece.entry, None)[:3]
    return {"id": piece.id, "kind": piece.kind, "n": n, "d": d, "w": w, "size": piece.size, "parts": piece.parts, "title": piece.title,
            "sources": piece.sources, "document": piece.document}


def data(held):
    """All that the table holds, as data."""
    made = provenance.provenance()
    return {"format": FORMAT, "made": today(), "program": {"sha256": made.program, "commit": made.commit, "toolchain": made.toolchain},
            "session_sha256": held.session_hash, "rules": [row for rows in table.rules().values() for row in rows],
            "pieces": list(map(piece_of, held.pieces.values())), "entries": [entry_of(held, entry) for entry in table.entries()]}


def document(whole, entry, side):
    """The derivation document of a bound out of the data of a JSON file, as `explain` writes it.

    `entry` is one of its entries; the evidence of a derivation stands before its lines, the parts of each piece before it."""
    pieces = {piece["id"]: piece for piece in whole["pieces"]}
    lines = ["derivation"]
    for name in entry[side]["evidence"]:
        of_piece = pieces[name]["document"].split("\n")
        lines += [f"evidence {name} lines {len(of_piece)}", *of_piece]
    return "\n".join([*lines, *entry[side]["derivation"], "done"]) + "\n"


def opened(held):
    """The open entries that are compared: to length 28, of even d, and with w at most n/2, to which all others are equal."""
    return [entry for entry in table.entries() if entry == published.same(*entry) and entry[0] <= published.LONGEST and held.bounds[entry][0] < held.bounds[entry][1]]


def comparison(held, size):
    """The open entries of 2 or 3 numbers of which a published value is known, beside it, as a table of Markdown."""
    lines = ["| entry | here | published | lower | upper |", "|---|---|---|---|---|"]
    for entry in opened(held):
        told = published.value(*entry)
        if len(entry) == size and told:
            low, high = held.bounds[entry]
            there = f"{told.lower}" if told.upper == told.lower else f"{told.lower}..{told.upper}" if told.upper else f"≥ {told.lower}"
            lower, upper = table.standings(entry, (low, high))
            source = f" ({told.source})" if told.source and upper.startswith("published only") else ""
            lines.append(f"| {name_of(entry)} | {low}..{high} | {there} | {lower} | {upper}{source} |")
    return "".join(line + "\n" for line in lines)


def write_comparison(path, held):
    """Writes both tables beside published values."""
    with open(path, "w", encoding="utf-8") as file:
        file.write(comparison(held, 2) + "\n" + comparison(held, 3))


def write_csv(path, held):
    """Writes the CSV file."""
    with open(path, "w", newline="", encoding="utf-8") as file:
        csv.writer(file, lineterminator="\n").writerows(csv_rows(held))


def write_json(path, held):
    """Writes the JSON file, each piece and each entry on a line of its own."""
    whole = data(held)
    with open(path, "w", encoding="utf-8", errors="surrogateescape") as file:
        head = [f" {json.dumps(name)}: {compact(value)}" for name, value in whole.items() if name not in ("rules", "pieces", "entries")]
        lists = [f" {json.dumps(name)}: [\n" + ",\n".join(f"  {compact(item)}" for item in whole[name]) + "\n ]" for name in ("rules", "pieces", "entries")]
        file.write("{\n" + ",\n".join(head + lists) + "\n}\n")


def compact(value):
    """A value on one line of JSON."""
    return json.dumps(value, ensure_ascii=False, separators=(",", ":"))


def main():
    parser = argparse.ArgumentParser(description=__doc__, formatter_class=argparse.RawDescriptionHelpFormatter)
    parser.add_argument("sessions", nargs="+", help="the library")
    parser.add_argument("--csv", help="the file for comma-separated values")
    parser.add_argument("--json", help="the file for JSON")
    parser.add_argument("--comparison", help="the file for the open entries beside published values, as Markdown")
    options = parser.parse_args()
    try:
        if not (options.csv or options.json or options.comparison):
            raise Refusal("nothing is asked for: give --csv FILE, --json FILE or --comparison FILE")
        held = table.held(table.read_sessions(options.sessions), ask_everything() if options.csv or options.json else table.ask_all())
        for path, write in (options.csv, write_csv), (options.json, write_json), (options.comparison, write_comparison):
            if path:
                write(path, held)
    except (Refusal, OSError) as fault:
        sys.exit(f"table_data: refused: {fault}")
    for command, reply in held.refused:
        print(f"table_data: {' '.join(command.words)}: {reply}", file=sys.stderr)
    sys.exit(bool(held.refused))


if __name__ == "__main__":
    ended(main)

#!/usr/bin/env python3
"""Stands for the program in tests of what reads its replies: it accepts each document as one word, shows 1 and 2^n, or 1 where no two words are
far enough apart, and explains by one line."""

import sys
from pathlib import Path

sys.path.insert(0, str(Path(__file__).resolve().parent.parent))

from code_tables import sessions
from code_tables.cites import cites_of


def bounds(n, d, w=None):
    far = d > n if w is None else d > 2 * min(w, n - w)
    name = sessions.name_of((n, d) if w is None else (n, d, w))
    return f"{name} = 1" if far else f"1 <= {name} <= {2 ** n}"


def reply(command, pieces):
    word, *rest = command.words
    numbers = [int(x) for x in rest if x.isdigit()]
    if word == "submit":
        if command.id in pieces:
            return ["refused taken"]
        fields = command.fields
        cites = len(cites_of(fields))
        pieces[command.id] = f"{command.id} {fields['kind']} {' '.join(map(str, sessions.entry_of(fields)))} size 1" + f" cites {cites}" * (cites > 0)
        return [f"accepted {command.id} size 1"]
    if word == "table":
        d, *weight = numbers
        return [bounds(n, d, *weight) for n in range(max(1, *weight, 1), sessions.LAST + 1)]
    if word == "show":
        return [bounds(*numbers)]
    if word == "ledger":
        return [*pieces.values(), f"pieces {len(pieces)}"]
    entry = " ".join(map(str, numbers))
    if rest[0] == "upper":
        return ["derivation", f"line 1 upper {entry} value 9 by U0", "done"]
    ids = [name for name in pieces if f" {entry} size" in pieces[name]]
    blocks = [line for name in ids for line in (f"evidence {name} lines 2", "kind = 'words'", "done")]
    return ["derivation", *blocks, f"line 1 lower {entry} value 1 by " + (f"L10 {ids[0]}" if ids else "L1"), "done"]


def main():
    pieces = {}
    for command in sessions.commands(sys.stdin.read()):
        print("\n".join(reply(command, pieces)))


main()

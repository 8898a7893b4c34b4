#!/usr/bin/env python3
"""Derivations with one change each, and whether the program's `verify` says the same of them as tools/check_derivation.py, which shares no code
with it. `mutations.py [--most N]` takes the derivations that the program prints for the examples and N changes of them, 2,000 if N is left out,
drawn by a fixed seed; it prints those on which the two differ, and ends with 1 where there are any."""

import argparse
import json
import random
import re
import subprocess
import sys

from support import HAS_PROGRAM, TOOLS, TOP, session

import check_derivation
from code_tables import sessions
from code_tables.program import program

# What may stand in the place of a line of a document: keys of one that cites.
CITING = ("format = 2", "format = 3", "cites = ['a']", "cites = ['']")
SHORT = """derivation
line 1 lower 3 4 value 1 by L1
line 2 lower 6 4 value 4 by L8 from 1
line 3 lower 5 3 value 4 by L6 from 2
done
"""
# The rules that are built: those of tools/rules.json.
RULES = sorted({row["rule"] for row in json.loads((TOOLS / "rules.json").read_text())})
AHEAD = {*check_derivation.PLAIN, *check_derivation.WEIGHTED, *check_derivation.NAMING} - {*RULES}


def is_built(document):
    """Whether a document names no rule that tools/check_derivation.py knows and the program doesn't."""
    return not AHEAD & {*document.split()}


def explanations(text):
    """What the program answers to `explain` for both sides of each entry that a session shows."""
    asked = [command for command in sessions.commands(text) if command.words[0] == "show"]
    more = "".join(f"explain {side} {' '.join(command.words[1:])}\n" for command in asked for side in ("lower", "upper"))
    whole = text.removesuffix("\n") + "\n" + more
    return ["\n".join(reply) + "\n" for command, reply in sessions.replies(sessions.commands(whole), session(whole))
            if command.words[0] == "explain" and reply and not reply[0].startswith("refused")]


def other_words(word):
    """What may stand in the place of a word."""
    if word.isdecimal():
        value = int(word)
        yield from map(str, (value + 1, max(0, value - 1), 0, value + 2 ** 32, value + 2 ** 64, 2 ** 64 - 1))
        yield from ("0" + word, "+" + word, "x")
    if re.fullmatch("[LMUV][0-9]+", word):
        yield from RULES
        yield from (word[0] + "99", word[0].lower() + word[1:])
    yield from {"lower": ["upper"], "upper": ["lower"]}.get(word, [])
    yield word.upper() if word.islower() else word.lower()


def other_lines(line):
    """What may stand in the place of a text line outside of a block: texts of any number of lines."""
    words = line.split(" ")
    for at, word in enumerate(words):
        for other in other_words(word):
            yield " ".join([*words[:at], other, *words[at + 1:]])
        yield " ".join(words[:at] + words[at + 1:])
        yield " ".join(words[:at + 1] + words[at:])
    if "from" in words:
        at = words.index("from") + 1
        yield " ".join(words[:at - 1])
        yield " ".join(words[:at] + words[:at - 1:-1])
        yield " ".join(words[:at] + [str(int(word) - 1) for word in words[at:]])
    yield from (line + "\r", line + "\r\r", line.replace(" ", "\t", 1), line.replace(" ", "  "), " " + line + " ", "#" + line)
    yield from (line + " \u00e9", line + "\udcff", "\n" + line, line + "\n", line + "\n" + line, line + "\nline 1 lower 3 4 value 1 by L1")
    yield from (line + "\ndone", line + "\nevidence more\nend", line + "\nderivation")


def blocks(lines):
    """The places of the first lines of blocks, and for each the place behind the block."""
    at = 1
    while lines[at].startswith("evidence "):
        behind = at + 1 + int(lines[at].split(" ")[3])
        yield at, behind
        at = behind


def changes(document):
    """The document with one change, for each change there is."""
    lines = document.removesuffix("\n").split("\n")
    inside = {at: (first, behind) for first, behind in blocks(lines) for at in range(first + 1, behind)}
    for at, line in enumerate(lines):
        before, after = lines[:at], lines[at + 1:]
        yield before + after
        yield before
        yield before + after[:1] + [line] + after[1:]
        if at not in inside:
            yield from (before + [other] + after for other in other_lines(line))
            continue
        for spot in [m.start() for m in re.finditer("[0-9]", line)][:40]:
            yield before + [line[:spot] + ("0" if line[spot] == "1" else "1") + line[spot + 1:]] + after
        yield from (before + [other] + after for other in ("end", line + "\r", line + "\udcff", line + " # \u00e9", *CITING))
    for first, behind in blocks(lines):
        head = " ".join(lines[first].split(" ")[:2])
        yield lines[:first] + [head] + lines[first + 1:behind] + ["end"] + lines[behind:]
        yield lines[:behind] + lines[first:]
        yield lines[:first] + lines[behind:]


def documents():
    """The derivations that the program prints for the examples, after a short one."""
    return [SHORT] + [document for file in sorted((TOP / "examples").glob("*.session")) for document in explanations(file.read_text())]


def changed(found, most):
    """So many changes of the documents, drawn by a fixed seed; each document is drawn equally often."""
    chance, texts = random.Random(1), []
    for document in found:
        all_of = list(changes(document))
        texts += ["\n".join(lines) + chance.choice(("\n", "\n", "")) for lines in chance.sample(all_of, min(len(all_of), most // len(found) + 1))]
    return texts


def verdicts(text):
    """The verdicts on a document, the program's and the other."""
    bytes_of = text.encode("utf-8", "surrogateescape")
    said = subprocess.run([program(), "verify"], input=bytes_of, stdout=subprocess.PIPE).stdout.decode()
    return said, check_derivation.verdict(bytes_of) + "\n"


def main():
    parser = argparse.ArgumentParser(description=__doc__)
    parser.add_argument("--most", type=int, default=2000, metavar="N")
    most = parser.parse_args().most
    if not HAS_PROGRAM or session(SHORT, "verify") != "yes\n":
        sys.exit(print("the program isn't built, or verifies nothing yet"))
    found = documents()
    texts, differ, kinds = changed(found, most), 0, {}
    for text in found + texts:
        said, other = verdicts(text)
        kinds[" ".join(other.split()[2:3])] = kinds.get(" ".join(other.split()[2:3]), 0) + 1
        if said != other:
            differ += 1
            print(f"---- the program: {said.strip()}; the other: {other.strip()}\n{text}")
    print(f"{len(found)} derivations and {len(texts)} changes of them: {differ} differ;",
          ", ".join(f"{count} {kind or 'yes'}" for kind, count in sorted(kinds.items())))
    sys.exit(differ > 0)


if __name__ == "__main__":
    main()

#!/usr/bin/env python3
"""Looks for codes of constant weight among the words of one weight in translates of codes, by bench/weights_of_codes.c.

    weights_of_codes.py FOLDER SECONDS SESSION ..

The sessions are run. Each code of theirs without weight that is stated by its words or cosets is given so many seconds, and each weight of which
one of its translates has more words than the bound of the table is written: the bound, the better number, and the build that gives it. FOLDER
gets the search program."""

import subprocess
import sys
from pathlib import Path

TOP = Path(__file__).resolve().parent.parent
sys.path.insert(0, str(TOP / "tools"))

import table
import words_of_pieces


def translates(program, n, words, seconds):
    """For each weight the greatest number of words of it in a translate, and the word that was added."""
    text = "".join(f"{word}\n" for word in words)
    said = subprocess.run([program, str(n), str(len(words)), str(seconds)], input=text, stdout=subprocess.PIPE, text=True, check=True).stdout
    return [(int(w), int(size), by) for w, size, by in (line.split() for line in said.splitlines())]


def main():
    folder, seconds, sessions = Path(sys.argv[1]), float(sys.argv[2]), sys.argv[3:]
    folder.mkdir(parents=True, exist_ok=True)
    program = str(folder / "weights_of_codes")
    subprocess.run(["cc", "-O3", "-march=native", "-o", program, str(TOP / "bench/weights_of_codes.c")], check=True)
    held = table.held(table.read_sessions(sessions), table.ask_all())
    codes = [piece for piece in held.pieces.values() if len(piece.entry) == 2 and piece.kind in ("words", "cosets")]
    distances = {piece.id: piece.entry[1] + piece.entry[1] % 2 for piece in codes}
    for name, n, words in words_of_pieces.codes(codes, 2 ** 18):
        for w, size, by in translates(program, n, words, seconds):
            entry = (n, distances[name], w)
            if size > held.bounds[entry][0]:
                print(f"A({n},{entry[1]},{w}) >= {size}, before {held.bounds[entry][0]}: the words of weight {w} in {name} after {by} is added", flush=True)


if __name__ == "__main__":
    main()

#!/usr/bin/env python3
"""Counts the paths through crates.txt: 1 for a crate, and those of each crate that it lists; tells the longest chain of proofs to the
program by bench/gate.tsv; and names each crate that is listed in vain.

    bench/paths.py

The toolchain works the checksum of a crate's sources out along every path, so each listed crate that is not needed costs time at each check.
However many processors there are, the program is not proved sooner than the crates of the longest chain, one after the other.
Ends with 1 where a crate lists one that none of its files names.
"""

import functools
import pathlib
import re
import sys

TOP = pathlib.Path(__file__).resolve().parent.parent
PROGRAM = "ct_program"


def uses():
    """The crates that each crate lists, of this repository and of the toolchain."""
    lines = [line for line in (TOP / "crates.txt").read_text().splitlines() if line.startswith("ct_")]
    return {line.split(":")[0].split()[0]: line.split(":")[1].split() for line in lines}


def proof_seconds():
    """The processor seconds of each crate's proof."""
    rows = (line.split("\t") for line in (TOP / "bench" / "gate.tsv").read_text().splitlines())
    return {crate: int(proof) for crate, proof, *_ in rows}


def text_of(crate):
    """All that the crate's sources, definitions and proofs say."""
    folders = (TOP / "crates" / crate / name for name in ("src", "specs", "proofs"))
    return "\n".join(file.read_text() for folder in folders for file in folder.rglob("*") if file.suffix in (".rt", ".antt"))


def names(text, library):
    return re.search(rf"\bRattle\.{library}\b|\b{library}::|\buse {library}\b", text)


def main():
    listed = uses()

    @functools.cache
    def paths(crate):
        return 1 + sum(paths(below) for below in listed[crate] if below in listed)

    seconds = proof_seconds()

    @functools.cache
    def chain(crate):
        longest = max((chain(below) for below in listed[crate] if below in listed), default=(0, ()))
        return longest[0] + seconds.get(crate, 0), (*longest[1], crate)

    print(f"{PROGRAM}: {paths(PROGRAM):,} paths; all {len(listed)} crates: {sum(map(paths, listed)):,}")
    print(f"The longest chain of proofs takes {chain(PROGRAM)[0]} processor seconds: {' '.join(chain(PROGRAM)[1])}")
    vain = [(crate, below) for crate, libraries in listed.items() for text in [text_of(crate)] for below in libraries if not names(text, below)]
    for crate, below in vain:
        print(f"{crate} lists {below} and names it nowhere")
    sys.exit(bool(vain))


main()

#!/usr/bin/env python3
"""What it costs to withdraw a piece with all that rests on it: the instructions that callgrind counts, less those of the same session without.

    bench/along.py [PROGRAM] [--sizes N,N ..]

PROGRAM is crates/ct_program/out/ct_program where none is named. Of n pieces the first half are words, and the others complements of the last
of these, one each. Per n, at most 1,000: what is counted where one piece goes on which none rests, and where half of them go, and the times
by which the second is more. Ends with 1 where that is more than ten. Wants valgrind."""

import argparse
import sys
import tempfile
from pathlib import Path

from worst_cases import build, instructions, submit, words

BUILT = Path(__file__).resolve().parent.parent / "crates/ct_program/out/ct_program"
TIMES = 10


def pieces(size):
    """As many pieces, half of which rest on one of the others."""
    half = size // 2
    return "".join(submit(f"p{i}", words(10, 4, [i])) for i in range(half)) + "".join(
        submit(f"b{i}", build("complement", 10, 4, f"p{half - 1}")) for i in range(half - 1)
    )


def main():
    parser = argparse.ArgumentParser(description=__doc__, formatter_class=argparse.RawDescriptionHelpFormatter)
    parser.add_argument("program", nargs="?", default=BUILT)
    parser.add_argument("--sizes", default="250,500,1000")
    options = parser.parse_args()
    slow = False
    with tempfile.TemporaryDirectory() as folder:
        folder = Path(folder)

        def counted(session):
            file = folder / "session"
            file.write_text(session)
            return instructions([str(options.program), "session"], file, folder)

        for size in map(int, options.sizes.split(",")):
            standing = pieces(size)
            start = counted(standing)
            one = counted(standing + "withdraw p0 all\n") - start
            half = counted(standing + f"withdraw p{size // 2 - 1} all\n") - start
            print(f"{size} pieces: one {one:,}, {size // 2} at once {half:,}, {half / one:.1f} times as many", flush=True)
            slow |= half > TIMES * one
    sys.exit(slow)


if __name__ == "__main__":
    main()

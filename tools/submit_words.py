#!/usr/bin/env python3
"""Makes a submission of the words of a code, or of a generator matrix.

    $ printf '000000\\n111000\\n000111\\n111111\\n' | tools/submit_words.py pairs
    # 4 words of length 6 at distance 3, over a kernel of dimension 2
    submit pairs
    kind = "words"
    n = 6
    d = 3
    words = ["000000", "111000", "000111", "111111"]
    end

The file FILE, or standard input, has a word a line, in digits 0 and 1, or a list of words or of lists of digits as Python or GAP print it. Spaces
and commas between digits don't count, nor do lines that are empty or begin with #, nor a byte order mark. The distance is the least of all
pairs, unless one is stated: that is left to the program. The weight is stated where all words have it. Where it is shorter, the words are
written as coset representatives of the code's kernel: of the words k for which the code, with k added modulo 2, is the code again. What each
--cite says, 1 to 200 bytes of printable ASCII, is what the document cites: its source, as the program keeps it. What is refused goes to
standard error with the line, and then nothing is written. The program checks all of it anew."""

import argparse
import sys
from pathlib import Path

from code_tables.sessions import Refusal
from code_tables.words import read_words, submission


def lines_of(file):
    """The lines of a file, or of standard input."""
    try:
        data = Path(file).read_bytes() if file else sys.stdin.buffer.read()
    except OSError as fault:
        raise Refusal(f"{file} can't be read: {fault.strerror}") from None
    return data.decode("utf-8", "replace").split("\n")


def main():
    parser = argparse.ArgumentParser(description=__doc__, formatter_class=argparse.RawDescriptionHelpFormatter)
    parser.add_argument("id", help="the id of the piece")
    parser.add_argument("file", nargs="?", metavar="FILE", help="the words (standard input)")
    parser.add_argument("--generator", action="store_true", help="the words are the rows of a generator matrix")
    parser.add_argument("--distance", type=int, help="the distance to state; the program checks it")
    parser.add_argument("--no-weight", action="store_true", help="state no weight, also where all words have the same")
    parser.add_argument("--comment", help="the remark above the submission")
    parser.add_argument("--cite", action="append", default=[], metavar="TEXT", help="where the code comes from, as the document cites it: up to 16 times")
    options = parser.parse_intermixed_args()
    try:
        words, n = read_words(lines_of(options.file))
        sys.stdout.write(submission(options.id, words, n, generator=options.generator, d=options.distance, may_have_weight=not options.no_weight,
                                    comment=options.comment, cites=options.cite))
    except Refusal as refusal:
        sys.exit(f"submit_words: refused: {refusal}")


if __name__ == "__main__":
    main()

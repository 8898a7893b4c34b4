#!/usr/bin/env python3
"""Takes the derivations out of the replies of a session, which may have any other replies between them.

    $ printf 'A(5,3) = 4\\nderivation\\nline 1 lower 3 4 value 1 by L1\\ndone\\nA(6,3) = 8\\n' | tools/derivations.py
    derivation
    line 1 lower 3 4 value 1 by L1
    done

Standard input has the replies. The derivation is written as `verify` and check_derivation.py read it: the only one, or that of the number N,
counted from 1. With --folder all of them are written, each as the file N.derivation of the folder, which is made; with --lines the lines of
the derivation stand alone, without the evidence. Where there is none, or no such one, or it isn't complete, nothing is written."""

import argparse
import sys
from pathlib import Path

from code_tables import sessions
from code_tables.ending import ended
from code_tables.sessions import Refusal


def chosen(found, number):
    """The derivation of a number, or the only one."""
    if not found:
        raise Refusal("there is no derivation in these replies")
    if number is None and len(found) > 1:
        raise Refusal(f"there are {len(found)} derivations: give the number of one, or --folder")
    if number is not None and not 1 <= number <= len(found):
        raise Refusal(f"there is no derivation {number}: they are {len(found)} in number")
    return found[(number or 1) - 1]


def complete(number, lines):
    """The text of a derivation, refused where it is cut off."""
    if lines[-1] != "done":
        raise Refusal(f"the derivation {number} isn't complete: the replies end before it does")
    return "\n".join(lines) + "\n"


def main():
    parser = argparse.ArgumentParser(description=__doc__, formatter_class=argparse.RawDescriptionHelpFormatter)
    parser.add_argument("number", nargs="?", type=int, metavar="N", help="which derivation, counted from 1")
    parser.add_argument("--folder", type=Path, help="a folder for all of them")
    parser.add_argument("--lines", action="store_true", help="write the lines alone, without evidence")
    options = parser.parse_args()
    try:
        found = sessions.derivations(sys.stdin.buffer.read().decode("utf-8", "surrogateescape"))
        if options.folder is None:
            lines = chosen(found, options.number)
            text = complete(options.number or 1, lines)
            if options.lines:
                text = "".join(f"{line}\n" for line in lines[sessions.passed(lines, 1, "evidence"):-1])
            sys.stdout.buffer.write(text.encode("utf-8", "surrogateescape"))
            sys.stdout.flush()
            return
        texts = [complete(number, lines) for number, lines in enumerate(found, 1)]
        options.folder.mkdir(parents=True, exist_ok=True)
        for number, text in enumerate(texts, 1):
            (options.folder / f"{number}.derivation").write_bytes(text.encode("utf-8", "surrogateescape"))
        print(f"{len(texts)} derivations")
    except (Refusal, OSError) as fault:
        sys.exit(f"derivations: refused: {fault}")


if __name__ == "__main__":
    ended(main)

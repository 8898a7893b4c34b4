#!/usr/bin/env python3
"""Refuses each allocation of the program ct_ledger_tests once, one a run, and says what its calls on a ledger made of it.

    bench/failing_allocations.py [PROGRAM] [--places FROM TO STEP]

PROGRAM is crates/ct_ledger_tests/out/ct_ledger_tests where none is named, which `rt run` in that crate builds. The library of refused_growths.py is
loaded before it. Each run has to print what it prints without a refusal, or to end with 1 where memory is refused outside of a call. Where a call on
the ledger wants memory, the program compares pieces, stored words and the whole table with what they were, says on standard output what
changed, says on standard error which call it was, and makes the call again. Prints for each call how many of its allocations were refused, and how
many of these the call answered as want of memory, and ends with 1 where a run did otherwise. Wants cc.

`rt try --fail-alloc N` does the same to one allocation, over the checked build before any proof."""

import argparse
import collections
import re
import subprocess
import sys
import tempfile
from pathlib import Path

from refused_growths import SHIM, TOP, Trial, places

BUILT = TOP / "crates/ct_ledger_tests/out/ct_ledger_tests"
WANT = re.compile(r"^(\w+ \w+): want of memory$")


def outcome(trial, at, whole):
    """What a run with a refusal came to: the call that wanted memory, `outside`, `nothing`, or None where it did what it must not."""
    status, output, _ = trial.run(at)
    if status == 1 and whole.startswith(output):
        return "outside"
    if (status, output) != (0, whole):
        return None
    calls = [found[1] for line in trial.said.decode().splitlines() if (found := WANT.match(line))]
    return calls[0] if len(calls) == 1 else "nothing" if not trial.said else None


def main():
    parser = argparse.ArgumentParser(description=__doc__, formatter_class=argparse.RawDescriptionHelpFormatter)
    parser.add_argument("program", nargs="?", default=BUILT)
    parser.add_argument("--places", nargs=3, type=int, metavar=("FROM", "TO", "STEP"), help="which allocations are refused, from 1 on")
    options = parser.parse_args()
    with tempfile.TemporaryDirectory() as folder:
        folder = Path(folder)
        (folder / "refuse.c").write_text(SHIM)
        library = folder / "refuse.so"
        subprocess.run(["cc", "-O2", "-shared", "-fPIC", "-o", library, folder / "refuse.c", "-ldl"], check=True)
        trial = Trial(str(options.program), library, [], "", folder)
        status, whole, count = trial.run()
        if status:
            sys.exit(f"{options.program} ends with {status}")
        came = [(at, outcome(trial, at, whole)) for at in places(count, options)]
    tell(count, came)


def tell(count, came):
    """Prints what came of the places."""
    ends = collections.Counter(what for _, what in came)
    bounds = {}
    for at, what in came:
        first, _ = bounds.get(what, (at, at))
        bounds[what] = first, at
    for what, (first, last) in bounds.items():
        if what not in (None, "outside", "nothing"):
            silent = sum(1 for at, other in came if first < at < last and other == "nothing")
            print(f"{what}: {ends[what] + silent} refused, {ends[what]} answered as want of memory, {silent} without consequence")
    calls = sum(number for what, number in ends.items() if what not in (None, "outside", "nothing"))
    print(f"{count} allocations, {len(came)} refused: {calls} answered by a call, {ends['outside']} outside of one, {ends['nothing']} without consequence, "
          f"{ends[None]} otherwise")
    for at, what in came:
        if what is None:
            print(f"allocation {at}: another output or status")
    sys.exit(bool(ends[None]))


if __name__ == "__main__":
    main()

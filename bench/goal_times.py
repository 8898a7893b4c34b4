#!/usr/bin/env python3
"""Prints the dearest goals and lemmas of a crate's proof, by what a check of it kept.

    (cd crates/NAME && rt check --jobs 1)    proves the crate, and keeps what it checked in out/
    bench/goal_times.py NAME [N]             the N dearest (30) of it: seconds, the module, the goal or the lemma

A goal for which no answer is written is found by a search, which may take many times what the answer takes. The seconds are those of the
clock, so the check had better be the only one that runs, and the first: it takes over what an earlier one kept. Generated modules (`Lts`,
`Kinds`, `Tie`), which go by the length of the code and its ways out, have no goals. The records are the toolchain's own (`rattle-kit-13f`):
with another one there may be none. Ends with 1 where there are none.
"""

import argparse
import json
import pathlib
import sys

TOP = pathlib.Path(__file__).resolve().parent.parent


def declarations(file):
    """The declarations that a record of a module tells of, each with its name and the microseconds of its phases."""
    text, decoder, at = file.read_bytes().decode(errors="replace"), json.JSONDecoder(), 0
    while (at := text.find('[{"aux"', at)) >= 0:
        try:
            found, at = decoder.raw_decode(text, at)
        except ValueError:
            at += 1
            continue
        yield from (it for it in found if it.get("phases"))


def goals(crate):
    """Each goal and lemma of the crate: seconds, module, name."""
    kept = TOP / "crates" / crate / "out" / "incremental"
    for file in sorted(kept.glob("*/*.oantt")) + sorted(kept.glob("*/records/*.oantt")):
        module = file.name.removesuffix(".oantt").removesuffix(".decls").removeprefix(f"Rattle-{crate}-")
        for it in declarations(file):
            yield sum(it["phases"]) / 1e6, module, it["name"]


def main():
    parser = argparse.ArgumentParser(description=__doc__, formatter_class=argparse.RawDescriptionHelpFormatter)
    parser.add_argument("crate")
    parser.add_argument("count", nargs="?", type=int, default=30)
    given = parser.parse_args()
    found = sorted(goals(given.crate), reverse=True)
    if not found:
        sys.exit(f"goal_times: nothing is kept of {given.crate}: run rt check --jobs 1 in its folder first")
    print(f"{sum(seconds for seconds, *_ in found):.1f} s for {len(found)} goals and lemmas")
    for seconds, module, name in found[: given.count]:
        print(f"{seconds:6.2f} {module} {name}")


if __name__ == "__main__":
    main()

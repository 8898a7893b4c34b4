#!/usr/bin/env python3
"""Finds duals for all entries of the table in one run of the mode `find`: how long it takes, how many there are, and at how many entries they
are better than the bounds of a table without evidence.

    found.py [PROGRAM ..]

PROGRAM is ../code_tables, where none is given; a further program, which has the mode too, is timed beside it.
"""
import pathlib
import re
import resource
import subprocess
import sys

TOP = pathlib.Path(__file__).resolve().parent.parent
MOST = 30


def entries():
    for n in range(1, MOST + 1):
        for d in range(3, MOST + 1):
            yield n, d
            if d % 2 == 0:
                for w in range(n + 1):
                    yield n, d, w


def output(program, mode, lines):
    """What the program writes, and the processor seconds that it took."""
    before = resource.getrusage(resource.RUSAGE_CHILDREN)
    ended = subprocess.run([*program.split(), mode], input="".join(lines).encode(), stdout=subprocess.PIPE)
    after = resource.getrusage(resource.RUSAGE_CHILDREN)
    return ended.stdout.decode(), after.ru_utime + after.ru_stime - before.ru_utime - before.ru_stime


def replies(text):
    """The bound of each reply, None for `none`."""
    for line in text.split("\n"):
        if line.startswith("# bound "):
            yield int(line.split()[2]), " ".join(line.split()[3:])
        elif line == "none":
            yield None, "none"


def main():
    programs = sys.argv[1:] or [str(TOP / "code_tables")]
    asked = list(entries())
    lines = [" ".join(map(str, entry)) + "\n" for entry in asked]
    output(programs[0], "find", [])
    for program in programs:
        text, seconds = output(program, "find", lines)
        found = list(replies(text))
        assert len(found) == len(asked), f"{program}: {len(found)} replies to {len(asked)} lines"
        stops = [stop for _, stop in found]
        print(f"{program}: {seconds:.2f} s,", ", ".join(f"{stops.count(stop)} {stop}" for stop in sorted(set(stops))))
    shown, _ = output(programs[0], "session", [f"show {line}" for line in lines])
    uppers = [int(re.findall(r"\d+", line)[-1]) for line in shown.split("\n") if line]
    text, _ = output(programs[0], "find", lines)
    gains = [entry for entry, (bound, _), upper in zip(asked, replies(text), uppers) if bound is not None and bound < upper]
    print(f"better than without evidence: {len(gains)} entries, {sum(len(entry) == 2 for entry in gains)} of them without weight")


if __name__ == "__main__":
    main()

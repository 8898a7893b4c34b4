#!/usr/bin/env python3
"""Runs the gate, and renews what is known of its cost from that one run.

    bench/gate_times.py --anew          the whole gate from nothing, and then bench/gate.tsv and its sums in bench/RESULTS.md
    bench/gate_times.py NAME ..         these crates and those below them; their rows are printed, and no file changes

The processor seconds of a crate are those of the prover's processes, by what they do: the proof of the crate, the proof of the crate with its
tests, and its must-fail edits, each with the check of the whole crate that the edits begin with. They are read from /proc twice a second.
What an earlier run on this machine proved takes none: --anew proves all. Ends as `rt ci` does.
"""

import argparse
import os
import pathlib
import subprocess
import sys
import time

TOP = pathlib.Path(__file__).resolve().parent.parent
TABLE = TOP / "bench" / "gate.tsv"
PAGE = TOP / "bench" / "RESULTS.md"
KINDS = ("proof", "tests", "edits")
FIRST, LAST = "<!-- These lines are written by bench/gate_times.py. -->", "<!-- The end of the lines. -->"
TICKS = os.sysconf("SC_CLK_TCK")


def crates():
    """The crates in the order of crates.txt."""
    lines = (TOP / "crates.txt").read_text().splitlines()
    return [line.split(":")[0].split()[0] for line in lines if line.startswith("ct_")]


def keeps():
    """Whether this toolchain's gate keeps what it proved: one that does not always proves all, and takes no names."""
    told = subprocess.run(["rt", "help"], capture_output=True, text=True, check=False)
    return "\n  rt ci NAME" in told.stdout + told.stderr


def edits_of(name):
    return len(list((TOP / "crates" / name / "must-fail").glob("*.edit")))


def kind_of(words):
    """What a process of the prover does, by its words."""
    if "--test" in words:
        return "tests"
    made = words[words.index("-o") + 1] if "-o" in words[:-1] else ""
    return "proof" if made.endswith((".rlib", "/checked")) else "edits"


def process(folder):
    """The session, the crate, the kind and the processor seconds of a process, if it is a proof."""
    try:
        words = (folder / "cmdline").read_bytes().decode(errors="replace").split("\0")[:-1]
        if len(words) < 4 or not words[0].endswith("/rattle") or "--crate-name" not in words or "--crate-checked" in words:
            return None
        after = (folder / "stat").read_text().rpartition(")")[2].split()
    except (OSError, ValueError):
        return None
    return int(after[3]), words[words.index("--crate-name") + 1], kind_of(words), (int(after[11]) + int(after[12])) / TICKS, after[19]


def watch(gate):
    """The seconds of each crate by kind, once the gate has ended, and the seconds that it took."""
    begun, seen = time.time(), {}
    while gate.poll() is None:
        for folder in pathlib.Path("/proc").iterdir():
            found = process(folder) if folder.name.isdigit() else None
            if found and found[0] == gate.pid:
                seen[folder.name, found[4]] = found[1:4]
        time.sleep(0.5)
    seconds = {}
    for name, kind, spent in seen.values():
        row = seconds.setdefault(name, dict.fromkeys(KINDS, 0.0))
        row[kind] += spent
    return seconds, time.time() - begun


def rows(seconds, names):
    """The rows of the table: a crate, its seconds by kind, and the number of its edits."""
    none = dict.fromkeys(KINDS, 0.0)
    return [(name, *(round(seconds.get(name, none)[kind]) for kind in KINDS), edits_of(name)) for name in names]


def summary(table, wall):
    proof, tests, edits = (sum(row[at] for row in table) for at in (1, 2, 3))
    kit = subprocess.run(["rt", "version"], capture_output=True, text=True, check=False).stdout.strip()
    return [
        f"From nothing the gate took {round((proof + tests + edits) / 60)} processor minutes of proofs: {round(proof / 60)} for {len(table)} crates,",
        f"{round(tests / 60)} for those that have tests, with them, and {round(edits / 60)} for {sum(row[4] for row in table)} edits in "
        f"{sum(row[4] > 0 for row in table)} crates; {round(wall / 60)} minutes on",
        f"{os.cpu_count()} processors, with what reads, links and runs beside it. The toolchain was `{kit}`.",
    ]


def written(table, wall):
    """The lines between the two marks of bench/RESULTS.md."""
    return [FIRST, "", *summary(table, wall), "", LAST]


def renew(table, wall):
    TABLE.write_text("".join(f"{name}\t{proof}\t{tests}\t{edits}\n" for name, proof, tests, edits, _ in table))
    lines = PAGE.read_text().splitlines()
    first, last = lines.index(FIRST), lines.index(LAST)
    PAGE.write_text("\n".join([*lines[:first], *written(table, wall), *lines[last + 1 :]]) + "\n")


def main():
    parser = argparse.ArgumentParser(description=__doc__, formatter_class=argparse.RawDescriptionHelpFormatter)
    parser.add_argument("--anew", action="store_true", help="prove all again")
    parser.add_argument("names", nargs="*", help="crates: these and those below them alone")
    given = parser.parse_args()
    words = ["rt", "ci", *(["--anew"] if given.anew and keeps() else []), *given.names]
    gate = subprocess.Popen(words, cwd=TOP, stdin=subprocess.DEVNULL, start_new_session=True)
    try:
        seconds, wall = watch(gate)
    except KeyboardInterrupt:
        gate.terminate()
        gate.wait()
        sys.exit(130)
    table = rows(seconds, crates())
    lacking = [name for name, proof, *_ in table if not proof]
    if given.names or lacking or gate.returncode:
        print("\n".join(f"{row[0]}\t" + "\t".join(map(str, row[1:])) for row in table if any(row[1:4])))
        if not given.names:
            why = "the gate failed" if gate.returncode else f"{len(lacking)} crates were not proved in this run: --anew proves all"
            print(f"gate_times: {why}; bench/RESULTS.md and bench/gate.tsv stay as they were", file=sys.stderr)
    else:
        renew(table, wall)
        print("\n".join(summary(table, wall)))
    sys.exit(gate.returncode)


if __name__ == "__main__":
    main()

#!/usr/bin/env python3
"""Processor seconds of programs over files, the least of three runs each. `compare.py NAME FILE PROGRAM OTHER` prints those of two programs
and their ratio, and ends with 1 where they don't write the same. `compare.py --growth NAME PROGRAM EMPTY FILE ..` prints those of the
files, less that of the first, and how much longer each takes than the one before."""

import os
import subprocess
import sys
import tempfile


def once(program, file):
    """The processor seconds of a run, and what it wrote."""
    with open(file, "rb") as input, tempfile.TemporaryFile() as output:
        child = subprocess.Popen(program.split(), stdin=input, stdout=output)
        _, _, used = os.wait4(child.pid, 0)
        child.returncode = 0
        output.seek(0)
        return used.ru_utime + used.ru_stime, output.read()


def least(program, file):
    """The run of least time among three, or the first where that takes long."""
    runs = [once(program, file)]
    while len(runs) < 3 and runs[0][0] < 20:
        runs.append(once(program, file))
    return min(runs)


def beside(name, file, program, other):
    """Two programs beside each other."""
    (time, output), (plain, wanted) = least(program, file), least(other, file)
    ratio = time / max(plain, 0.001)
    print(f"{name:18} {time:9.3f} s, plain {plain:7.3f} s, ratio {ratio:.1f}", flush=True)
    if output != wanted:
        sys.exit(f"{name}: other replies")


def growth(name, program, *files):
    """One program over files, the first of which is empty."""
    start, *times = (least(program, file)[0] for file in files)
    times = [max(time - start, 0.0001) for time in times]
    told = [f"{times[0]:8.3f} s"] + [f"{time:8.3f} s ({time / before:.1f})" for before, time in zip(times, times[1:])]
    print(f"{name:24} {' '.join(told)}", flush=True)


if sys.argv[1] == "--growth":
    growth(*sys.argv[2:])
else:
    beside(*sys.argv[1:])

#!/usr/bin/env python3
"""Least duals and the primals that show it, beside a plain program.

    least_duals.py [--longest N]
    least_duals.py [--longest N] --program PROGRAM

The first form makes the finder's run at each entry of n up to N (14), reads its primal off, checks that over fractions by tools/check_primal.py, and
compares its value with the dual's bound: it says how many runs ended how, and ends with 1 where a primal is not sound or has another value. The
second form asks PROGRAM for the duals of all entries of the table, checks each primal that is printed, compares what is printed of n up to N with
the run made here, and says how many runs ended how, which had a number that is too wide, and the processor seconds. The rows are whole
numbers here, as the run is stated; bench/finder.py has fractions."""

import argparse
import sys
from collections import Counter
from fractions import Fraction
from math import gcd, lcm
from pathlib import Path

TOP = Path(__file__).resolve().parent.parent
sys.path.insert(0, str(TOP / "tools"))

import check_primal
import found
from check_primal import Primal, indices, scheme_number

GREATEST = 2 ** 63 - 1
TURNS = 20000


def reduced(row):
    """A row divided by its greatest common divisor; a row of zeros as it is."""
    divisor = gcd(*row)
    return [x // divisor for x in row] if divisor else row


class Run:
    """The simplex method of an entry: columns z, a_i, s_k and the constant, rows of whole numbers each with its basic column, and the cost row."""

    def __init__(self, entry, even):
        n, _, w = (*entry, None)[:3]
        self.indices, self.degree = indices(entry, even)
        self.width = 2 + len(self.indices) + self.degree
        self.rows, self.basic = [], []
        for k in range(1, self.degree + 1):
            numbers = [-scheme_number(n, w, k, i) for i in self.indices]
            self.rows.append([0, *numbers, *(int(j == k) for j in range(1, self.degree + 1)), scheme_number(n, w, k, 0)])
            self.basic.append(len(self.indices) + k)
        self.cost = [1, *[-1] * len(self.indices), *[0] * (self.degree + 1)]

    def pivot(self, entering):
        """The place of the pivot row, or nothing."""
        candidates = [place for place, row in enumerate(self.rows) if row[entering] > 0]
        return min(candidates, key=lambda place: (Fraction(self.rows[place][-1], self.rows[place][entering]), self.basic[place]), default=None)

    def turned(self, row, line, entering):
        """A row after a turn about a pivot row."""
        return reduced([line[entering] * x - row[entering] * y for x, y in zip(row, line)])

    def end(self):
        """How the run ends: `least`, or `turns` or `wide` with a number."""
        for made in range(TURNS + 1):
            entering = next((place for place in range(1, self.width - 1) if self.cost[place] < 0), None)
            if entering is None:
                return "least", None
            place = self.pivot(entering)
            if made == TURNS or place is None:
                return "turns", TURNS
            line = self.rows[place]
            rows = [row if row is line else self.turned(row, line, entering) for row in self.rows]
            cost = self.turned(self.cost, line, entering)
            wide = next((x for row in [*rows, cost] for x in row if abs(x) > GREATEST), None)
            if wide is not None:
                return "wide", wide
            self.rows, self.cost, self.basic[place] = rows, cost, entering

    def multipliers(self):
        """The multipliers of the run's dual."""
        first = 1 + len(self.indices)
        return [self.cost[0], *self.cost[first:first + self.degree]]

    def primal(self):
        """The primal of a run that ended as least, and the first number of it that doesn't fit, or nothing."""
        kept = [(self.indices[basic - 1], row[basic], row[-1]) for row, basic in zip(self.rows, self.basic) if 1 <= basic <= len(self.indices)]
        q, wide = 1, []
        for _, beta, _ in kept:
            q = lcm(q, beta)
            wide += [q] if q > GREATEST else []
        numbers = [(i, constant * (q // beta)) for i, beta, constant in kept]
        wide += [a for _, a in numbers if a > GREATEST]
        return Primal(q, tuple(sorted((i, a) for i, a in numbers if a))), next(iter(wide), None)


def forms(longest):
    """The entries of n up to a length, each with the marks `even` that it may have."""
    for entry in found.entries():
        if entry[0] <= longest:
            yield entry, False
            if len(entry) == 2 and entry[1] % 2 == 0:
                yield entry, True


def compared(entry, even):
    """How the run of an entry ends; where as least, its primal is sound and has the bound of the dual as its value."""
    run = Run(entry, even)
    stop, _ = run.end()
    if stop != "least":
        return stop
    n, _, w = (*entry, None)[:3]
    c, (primal, wide) = run.multipliers(), run.primal()
    bound = min(check_primal.MAX, sum(x * scheme_number(n, w, k, 0) for k, x in enumerate(c)) // c[0])
    missed = [i for i in run.indices if sum(x * scheme_number(n, w, k, i) for k, x in enumerate(c)) > 0]
    why = check_primal.fault(entry, even, primal) if wide is None else None
    if missed or why or check_primal.value(primal) != bound:
        sys.exit(f"{entry} {'even' if even else ''}: bound {bound}, value {check_primal.value(primal)}, {why}, dual missed at {missed}")
    return "wide" if wide is not None else stop


def told(stops):
    """How often each end came."""
    return ", ".join(f"{count} {stop}" for stop, count in sorted(Counter(stops).items()))


def agrees(entry, reply):
    """Whether a reply, or none, is the one that the run made here has."""
    run = Run(entry, len(entry) == 2 and entry[1] % 2 == 0)
    stop, _ = run.end()
    if stop != "least":
        return reply is None if len(entry) == 3 else reply.stop.split()[0] == stop and reply.primal is None
    primal, wide = run.primal()
    wanted = ("least", primal) if wide is None else ("wide", None)
    return reply is not None and (reply.stop, reply.primal) == wanted and check_primal.dual_of(reply).c == run.multipliers()


def all_replies(program, longest):
    """What a program says of all entries: each of its primals checked, those of n up to a length compared."""
    asked = list(found.entries())
    text, seconds = found.output(program, "find", [" ".join(map(str, entry)) + "\n" for entry in asked])
    replies = {reply.entry: reply for reply in check_primal.replies(text)}
    stops = [replies[entry].stop if entry in replies else "none" for entry in asked]
    print(f"{len(asked)} entries: {told(stops)}; {sum(map(check_primal.checked, replies.values()))} shown to be least; {seconds:.2f} s")
    others = [entry for entry in asked if entry[0] <= longest and not agrees(entry, replies.get(entry))]
    if others:
        sys.exit(f"other replies at {others}")
    print("wide:", ", ".join(str(entry) for entry, stop in zip(asked, stops) if stop == "wide"))


def main():
    parser = argparse.ArgumentParser(description=__doc__, formatter_class=argparse.RawDescriptionHelpFormatter)
    parser.add_argument("--longest", type=int, default=14)
    parser.add_argument("--program")
    options = parser.parse_args()
    if options.program:
        all_replies(options.program, options.longest)
    else:
        stops = [compared(entry, even) for entry, even in forms(options.longest)]
        print(f"{len(stops)} entries of n up to {options.longest}: {told(stops)}; each primal is sound, and its value is the bound")


if __name__ == "__main__":
    main()

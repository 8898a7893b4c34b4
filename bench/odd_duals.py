#!/usr/bin/env python3
"""Looks for sizes that parity excludes: for each entry the least odd m of which a dual shows that no code has m words.

    odd_duals.py examples/library/[1-7]*.session > examples/library/8-odd-duals.session
    odd_duals.py --plain examples/library/[1-7]*.session

For a code of m words, m odd, let A_i be the number of words at distance i from a word, on average. Each sum of a character over the words is odd,
so its square is at least 1, and for k = 1 to n

    K_k(0)·(1 - 1/m) + sum over i >= d of A_i K_k(i) >= 0,

with K_k(i) the Krawtchouk number (Best, Brouwer, MacWilliams, Odlyzko and Sloane 1978). Besides A_i <= A(n,d',i), with d' the even one of d and
d + 1, and the A_i at distances with 2i >= 2n - d, each over its bound, add up to at most 1. Where the greatest 1 + sum of A_i is below m, the
multipliers of these inequalities are a dual of kind `odd`. With --plain the factor 1 - 1/m is left out, and they are one of kind `dual`.

The linear program is solved over fractions, once for each m that halving asks for: where an m is excluded, a greater one is. The multipliers are
rounded to whole numbers by tools/submit_dual.py, on the coarsest scale on which they still exclude m. Of an odd distance only the greatest length
is tried, since elsewhere A(n,d) = A(n+1,d+1). The bounds A(n,d',i) and those that a dual has to better are the program's, over the sessions and
the duals that were found before; it has to know the kind. In the end each dual without which its entry has the same bound goes.
Where the sessions have a dual of the same id, it is withdrawn before."""

import argparse
import sys
import textwrap
from fractions import Fraction
from math import comb
from pathlib import Path

sys.path.insert(0, str(Path(__file__).resolve().parent.parent / "tools"))

import submit_dual
import table
from code_tables import sessions
from code_tables.cites import citing
from code_tables.sessions import LAST, name_of

DELSARTE = "P. Delsarte, An algebraic approach to the association schemes of coding theory, Philips Res. Rep. Suppl. 10 (1973)"
BEST = ("M. R. Best, A. E. Brouwer, F. J. MacWilliams, A. M. Odlyzko and N. J. A. Sloane, Bounds for binary codes of length less than 25, "
        "IEEE Trans. Inform. Theory 24 (1978), 81-93")

# What stands above all duals that exclude an odd number of words.
HEAD = """\
# Duals that exclude an odd number of words: each sum of a character over so many words is odd, so its square is at least 1
# (Best, Brouwer, MacWilliams, Odlyzko and Sloane 1978). Each betters its entry over the sessions before. They were
# found by bench/odd_duals.py.

"""


def solved(rows, constants, gains):
    """The greatest sum of gains times numbers of at least 0 whose rows are at most the constants, which are at least 0, and the multipliers of
    the rows: the simplex method with the rule of the least index."""
    width = len(gains)
    tableau = [[*map(Fraction, row), *(Fraction(i == j) for j in range(len(rows))), Fraction(constant)]
               for i, (row, constant) in enumerate(zip(rows, constants))]
    cost = [*(Fraction(-gain) for gain in gains), *[Fraction(0)] * (len(rows) + 1)]
    basic = [width + i for i in range(len(rows))]
    while True:
        entering = next((place for place in range(len(cost) - 1) if cost[place] < 0), None)
        if entering is None:
            return cost[-1], cost[width:-1]
        candidates = [i for i, row in enumerate(tableau) if row[entering] > 0]
        pivot = min(candidates, key=lambda i: (tableau[i][-1] / tableau[i][entering], basic[i]))
        head = tableau[pivot][entering]
        line = tableau[pivot] = [x / head for x in tableau[pivot]]
        for row in [*tableau[:pivot], *tableau[pivot + 1:], cost]:
            if row[entering]:
                times = row[entering]
                row[:] = [x - times * y if y else x for x, y in zip(row, line)]
        basic[pivot] = entering


def multipliers(program):
    """The greatest size that the inequalities of an entry allow, and the multipliers c and y. Of even distances the numbers k and n - k have one
    inequality."""
    n, share = program.n, Fraction(1) if program.odd is None else 1 - Fraction(1, program.odd)
    degrees = range(1, (n // 2 if program.even else n) + 1)
    far = [i for i in program.range if 2 * i >= 2 * n - program.d]
    near = [i for i in program.range if i not in far]
    rows = [[-submit_dual.scheme_number(n, None, k, i) for i in program.range] for k in degrees]
    rows += [[int(i == j) for j in program.range] for i in near] + [[Fraction(j in far, program.upper(j)) for j in program.range]]
    constants = [*(share * comb(n, k) for k in degrees), *map(program.upper, near), 1]
    most, prices = solved(rows, constants, [1] * len(program.range))
    c, y = prices[:len(degrees)], dict(zip(near, prices[len(degrees):])) | {i: prices[-1] / program.upper(i) for i in far}
    return 1 + most, [Fraction(1), *c, *[Fraction(0)] * (n - len(degrees))], y


def least_odd(n, d, uppers, low, high):
    """The program and the multipliers of the least odd m above low and at most high that is excluded, or nothing."""
    sizes, best = range(low + 1 + low % 2, min(high, submit_dual.MOST_ODD) + 1, 2), None
    first, behind = 0, len(sizes)
    while first < behind:
        middle = (first + behind) // 2
        program = submit_dual.Program(n, d, None, sizes[middle], uppers)
        most, c, y = multipliers(program)
        if most < sizes[middle]:
            behind, best = middle, (program, c, y)
        else:
            first = middle + 1
    return best


def plain(n, d, uppers, high):
    """The program and the multipliers of a dual whose bound is below a number, or nothing."""
    program = submit_dual.Program(n, d, None, None, uppers)
    most, c, y = multipliers(program)
    return (program, c, y) if most < high else None


def listed(numbers):
    """Numbers as a text, with `and` before the last."""
    *first, last = map(str, numbers)
    return f"{', '.join(first)} and {last}" if first else last


def submission(name, program, c, y):
    """A submission of a dual, with what it shows."""
    entry, bound = name_of((program.n, program.d)), program.bound(c, y)
    words = f" and bounds on the words at distance {listed(y)}" if y else ""
    remark = (f"{entry} is at most {bound}, by Delsarte's inequalities{words}." if program.odd is None else
              f"{entry} is at most {bound}: Delsarte's inequalities for an odd number of words{words} exclude {program.odd} words.")
    cites = [DELSARTE, BEST] if y or program.odd else [DELSARTE]
    lines = citing(submit_dual.document(program, c, y), cites).split("\n")
    remarks = [f"# {line}" for line in textwrap.wrap(remark, 118)]
    return "\n".join([*remarks, f"submit {name} lines {len(lines)}", *lines, ""])


def bounds(text):
    """The bounds of all entries that the program gives over a session."""
    held = table.held(text, table.ask_all())
    assert not held.refused, held.refused[0]
    return held.bounds


def found(text, is_plain):
    """The submissions by entry, each of which bettered its entry when it came."""
    duals, held, ids = {}, bounds(text), {command.id for command in sessions.commands(text)}
    for n, d in [(n, d) for n in table.LENGTHS for d in table.DISTANCES if d <= n and (d % 2 == 0 or n == LAST)]:
        low, high = held[n, d]
        uppers = {entry[2]: pair[1] for entry, pair in held.items() if entry[:2] == (n, d + d % 2) and len(entry) == 3}
        told = (plain(n, d, uppers, high) if is_plain else least_odd(n, d, uppers, low, high)) if low < high else None
        if told:
            program, c, y = told
            name = f"{'u' if is_plain else 'o'}{n}-{d}"
            made = submission(name, program, *submit_dual.reduced(*submit_dual.whole_dual(program, c, y)))
            duals[n, d] = f"withdraw {name}\n" * (name in ids) + made
            held = bounds(text + "".join(duals.values()))
            print(f"{name_of((n, d))}: {high}, now {held[n, d][1]}", file=sys.stderr, flush=True)
    return duals


def needed(text, duals):
    """The duals without which their entry has a greater bound."""
    for entry in list(duals):
        others = {key: dual for key, dual in duals.items() if key != entry}
        if bounds(text + "".join(others.values()))[entry] == bounds(text + "".join(duals.values()))[entry]:
            duals = others
    return duals


def main():
    parser = argparse.ArgumentParser(description=__doc__, formatter_class=argparse.RawDescriptionHelpFormatter)
    parser.add_argument("--plain", action="store_true", help="duals that exclude no number of words")
    parser.add_argument("sessions", nargs="+", help="the library so far")
    options = parser.parse_args()
    text = table.read_sessions(options.sessions)
    duals = needed(text, found(text, options.plain))
    in_order = sorted(duals, key=lambda entry: (entry[1] % 2, entry[1], entry[0]))
    print("" if options.plain else HEAD, "\n".join(duals[entry] for entry in in_order), sep="", end="")


if __name__ == "__main__":
    main()

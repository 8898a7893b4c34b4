#!/usr/bin/env python3
"""Looks for duals that see a code of constant weight from one of its words: for each entry A(n,d,w) that is not exact the one that bounds it best.

    local_duals.py examples/library/[1-8]*.session > examples/library/9-local-duals.session

For a code of words of weight w let A_i be the number of words at distance 2i from a word, on average. For k = 1 to the least of w and n - w,

    J_k(0) + sum over i >= d/2 of A_i J_k(i) >= 0,

with J_k(i) the number of the Johnson scheme (Delsarte 1973). Besides A_i <= U_i, the lesser of the table's bound of A(n,d,2i) and of one of the
doubly constant codes of (w,i,n-w,i,d) (Johnson 1972; Agrell, Vardy and Zeger 2000). Where the whole part of the greatest 1 + sum of A_i is below
the table's bound, the multipliers of these inequalities are a dual of kind `jlocal`, or, where no A_i <= U_i is needed, of kind `jdual`.

The linear program is solved over fractions, and its multipliers are rounded to whole numbers by tools/submit_dual.py, on the coarsest scale on which
they still give the bound. Weights above n/2 are not tried: A(n,d,w) = A(n,d,n-w). A bound that became better betters other programs: the entries
are gone through, d by d and n ascending, until none gives a better bound. The table's bounds are the program's, over the sessions and the
duals that were found before; it has to know the kind. In the end each dual without which its entry has the same bound goes."""

import argparse
import sys
import textwrap
from math import floor
from pathlib import Path

sys.path.insert(0, str(Path(__file__).resolve().parent.parent / "tools"))

import submit_dual
import table
from code_tables import sessions
from code_tables.cites import citing
from code_tables.sessions import name_of
from odd_duals import DELSARTE, listed, solved

JOHNSON = "S. M. Johnson, Upper bounds for error correcting codes of constant weight, Discrete Math. 3 (1972), 109-124"
AGRELL = "E. Agrell, A. Vardy and K. Zeger, Upper bounds for constant-weight codes, IEEE Trans. Inform. Theory 46 (2000), 2373-2395"

# What stands above all duals that see a code from a word.
HEAD = """\
# Duals that see a code of constant weight from one of its words: the words at one distance from it are a doubly constant code, which
# bounds their number (Johnson 1972; Agrell, Vardy and Zeger 2000). Each betters its entry over the sessions before. They were
# found by bench/local_duals.py.

"""

ENTRIES = [(n, d, w) for d in table.EVEN for n in table.LENGTHS for w in range(d // 2, n // 2 + 1)]


def entry_of(program):
    """The entry of a program."""
    return program.n, program.d, program.w


def multipliers(program):
    """The greatest size that the inequalities of an entry allow, and the multipliers c and y."""
    degrees, width = range(1, program.degree + 1), len(program.range)
    rows = [[-submit_dual.scheme_number(program.n, program.w, k, i) for i in program.range] for k in degrees]
    rows += [[int(i == j) for j in program.range] for i in program.range]
    constants = [*(submit_dual.scheme_number(program.n, program.w, k, 0) for k in degrees), *map(program.upper, program.range)]
    most, prices = solved(rows, constants, [1] * width)
    return 1 + most, [1, *prices[:len(degrees)]], dict(zip(program.range, prices[len(degrees):]))


def submission(name, program, c, y):
    """A submission of a dual, with what it shows."""
    entry = name_of(entry_of(program))
    words = f" and bounds on the words at distance {listed(2 * i for i in y)} from a word" if y else ""
    remark = f"{entry} is at most {program.bound(c, y)}, by the inequalities of the Johnson scheme{words}."
    lines = citing(submit_dual.document(program, c, y), [DELSARTE, JOHNSON, AGRELL] if y else [DELSARTE]).split("\n")
    return "\n".join([*(f"# {line}" for line in textwrap.wrap(remark, 118)), f"submit {name} lines {len(lines)}", *lines, ""])


def bounds(text):
    """The bounds of all entries with weight that the program gives over a session."""
    asked = [f"table {d} {w}" for d in table.EVEN for w in range(sessions.LAST + 1)]
    *before, = sessions.commands(text)
    answered = list(table.answers(table.with_commands(text, asked)))
    refused = [(command.id, reply[0]) for command, reply in answered[:len(before)] if reply[0].startswith("refused ")]
    assert not refused, refused[0]
    return {entry: (low, high) for _, reply in answered[len(before):] for entry, low, high in map(sessions.bounds_of, reply)}


def uppers(entry, held):
    """The table's bounds of A(n,d,2i) for each i from d/2 on."""
    n, d, w = entry
    return {i: held[n, d, 2 * i][1] for i in range(d // 2, w + 1)}


def better(entry, held):
    """The program and a dual that gives a better bound of an entry than the table has, or nothing."""
    program = submit_dual.Program(*entry, uppers=uppers(entry, held), local=True)
    most, c, y = multipliers(program)
    if floor(most) >= held[entry][1]:
        return None
    c, y = submit_dual.reduced(*submit_dual.whole_dual(program, c, y))
    return submit_dual.Program(*entry, uppers=program.uppers, local=bool(y)), c, y


def session(duals):
    """The submissions of duals, by entry."""
    in_order = sorted(duals.items(), key=lambda named: (named[1][0].d, *entry_of(named[1][0])))
    return "\n".join(submission(name, *dual) for name, dual in in_order)


def found(text):
    """The duals by id, each of which bettered its entry when it came."""
    duals, held, tried, is_done = {}, bounds(text), {}, False
    while not is_done:
        is_done = True
        for entry in (entry for entry in ENTRIES if held[entry][0] < held[entry][1]):
            seen = held[entry], uppers(entry, held)
            told = better(entry, held) if tried.get(entry) != seen else None
            tried[entry] = seen
            if told:
                again = sum(entry_of(program) == entry for program, _, _ in duals.values())
                name, high = ("l" if told[0].local else "j") + "{}-{}-{}".format(*entry) + f"-{again + 1}" * (again > 0), held[entry][1]
                is_done, duals[name] = False, told
                held = bounds(text + session(duals))
                print(f"{name}: {name_of(entry)}: {high}, now {held[entry][1]}", file=sys.stderr, flush=True)
    return duals


def needed(text, duals):
    """The duals without which their entry has a greater bound, with what they bound in the end."""
    goal = bounds(text + session(duals))
    for name, (program, _, _) in list(duals.items()):
        entry, others = entry_of(program), {other: dual for other, dual in duals.items() if other != name}
        if bounds(text + session(others))[entry] == goal[entry]:
            duals = others
    for program, _, _ in duals.values():
        program.uppers = uppers(entry_of(program), goal)
    return duals


def main():
    parser = argparse.ArgumentParser(description=__doc__, formatter_class=argparse.RawDescriptionHelpFormatter)
    parser.add_argument("sessions", nargs="+", help="the library so far")
    text = table.read_sessions(parser.parse_args().sessions)
    print(HEAD, session(needed(text, found(text))), sep="", end="")


if __name__ == "__main__":
    main()

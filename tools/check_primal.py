#!/usr/bin/env python3
"""Checks the primals that the mode `find` prints, without the program: that no dual of the same form has a smaller bound.

    $ printf '# bound 14 least\\n# primal 48 2:576 4:48\\nsubmit find-8-4-4 lines 5\\n' > found
    $ printf 'kind = "jdual"\\nn = 8\\nd = 4\\nw = 4\\nc = [48, 21, 4]\\n' >> found
    $ tools/check_primal.py < found
    A(8,4,4): 14 is the least bound

Standard input is what `find` wrote, as in ./code_tables find < entries | tools/check_primal.py. A line `# primal Q I:A ..` stands for the numbers
A_i = A/Q of Delsarte's linear program (docs/RULES.md). It is sound where Q and each A are at least 1, the I ascend through the indices of the
entry, even ones where the dual is of even distances, and

    N_k(0) + sum of A_i N_k(i) >= 0   for k = 1 to the degree,

with N_k the scheme's numbers, Krawtchouk's or with a weight the Johnson scheme's. Then every dual of the entry, of even distances or not as this one
is, and without y, has a bound of at least 1 + sum of A_i, rounded down. The dual below the line is checked too: it meets its inequalities, and has
the bound that is printed. Ends with 1 where a reply is not so, and says why."""

import argparse
import re
import sys
from dataclasses import dataclass
from fractions import Fraction

import check_derivation
from check_derivation import MAX, No, scheme_number
from code_tables.ending import ended
from code_tables.sessions import Refusal, lines_of, name_of, number_of

# The greatest number that a document, and a primal, has.
GREATEST = 2 ** 63 - 1
# The replies of `find` without a dual.
WITHOUT = ("none", "refused entry", "refused command")


@dataclass(frozen=True)
class Primal:
    """A primal as it is printed: its scale, and its pairs of an index and a number."""
    q: int
    a: tuple


@dataclass(frozen=True)
class Found:
    """A reply of `find` with a dual: the entry, the bound, how the run ended, the primal where one is printed, and the document."""
    entry: tuple
    bound: int
    stop: str
    primal: Primal | None
    document: str


def whole(text):
    """The whole number that a text writes."""
    value = number_of(text)
    if value is None:
        raise Refusal(f"{text} is no whole number")
    return value


def primal_of(line):
    """The primal of a line, or nothing where it is of another form. A line may lack its `#`."""
    told = re.fullmatch(r"(?:# )?primal ([0-9]+)((?: [0-9]+:[0-9]+)*)", line)
    return told and Primal(whole(told[1]), tuple(tuple(map(whole, pair.split(":"))) for pair in told[2].split()))


def bound_of(line):
    """The bound and the end of the run of a line, or nothing where it is of another form. A line may lack its `#`."""
    told = re.fullmatch(r"(?:# )?bound ([0-9]+) (least|wide|turns [0-9]+)", line)
    return told and (whole(told[1]), told[2])


def replies(text):
    """The replies of `find` that have a dual, in order."""
    lines, at = lines_of(text), 0
    while at < len(lines):
        if lines[at] in WITHOUT:
            at += 1
            continue
        head = bound_of(lines[at])
        primal = primal_of(lines[at + 1]) if head and at + 1 < len(lines) else None
        behind = at + 1 + (primal is not None)
        told = re.fullmatch(r"submit find-(\d+)-(\d+)(?:-(\d+))? lines (\d+)", lines[behind]) if head and behind < len(lines) else None
        stop = behind + 1 + whole(told[4]) if told else 0
        if not told or stop > len(lines):
            raise Refusal(f"line {at + 1} begins no reply of the mode find")
        yield Found(tuple(map(whole, filter(None, told.groups()[:3]))), *head, primal, "\n".join(lines[behind + 1:stop]))
        at = stop


def indices(entry, even):
    """The indices of an entry at which a dual is tested, and the degree: distances, or with a weight their halves."""
    n, d, w = (*entry, None)[:3]
    degree = n if w is None else min(w, n - w)
    return [i for i in range(d if w is None else d // 2, degree + 1) if not even or i % 2 == 0], degree


def sums(entry, primal):
    """The number of k, and what stands at the left of its inequality, for each k."""
    n, _, w = (*entry, None)[:3]
    for k in range(1, indices(entry, False)[1] + 1):
        yield k, scheme_number(n, w, k, 0) + sum(Fraction(a, primal.q) * scheme_number(n, w, k, i) for i, a in primal.a)


def fault(entry, even, primal):
    """Why a primal is not sound; nothing where it is."""
    places = [i for i, _ in primal.a]
    if not 1 <= primal.q <= GREATEST:
        return f"the scale {primal.q} is not from 1 to 2^63 - 1"
    for i, a in primal.a:
        if i not in indices(entry, even)[0]:
            return f"{i} is no index of the entry"
        if not 1 <= a <= GREATEST:
            return f"the number {a} at {i} is not from 1 to 2^63 - 1"
    if places != sorted(set(places)):
        return "the indices don't ascend"
    return next((f"for k = {k} the sum is {value}, below 0" for k, value in sums(entry, primal) if value < 0), None)


def value(primal):
    """The bound below which no dual has one, if the primal is sound."""
    return min(MAX, int(1 + sum(Fraction(a, primal.q) for _, a in primal.a)))


def dual_of(found):
    """The dual of a reply, refused where it doesn't meet its inequalities or is of another entry or form."""
    try:
        dual = check_derivation.Piece(found.document.encode("utf-8", "surrogateescape"))
        dual.check({})
    except No as why:
        raise Refusal(f"the dual is refused: {why}") from None
    if dual.kind not in ("dual", "jdual") or dual.entry != found.entry:
        raise Refusal("the document is no dual of this entry")
    if any(dual.y.values()):
        raise Refusal("the dual has a y")
    if min(MAX, dual.f(0) // dual.c[0]) != found.bound:
        raise Refusal(f"the dual's bound is {min(MAX, dual.f(0) // dual.c[0])}, and {found.bound} is printed")
    return dual


def is_even(dual):
    """Whether a dual is of even distances alone."""
    return dual.table.get("even", False)


def checked(found):
    """Whether a reply shows that its bound is the least; refused where something in it is not so."""
    dual = dual_of(found)
    if (found.stop == "least") != (found.primal is not None):
        raise Refusal(f"the run ended as {found.stop}, and {'no' if found.primal is None else 'a'} primal is printed")
    if found.primal is None:
        return False
    why = fault(found.entry, is_even(dual), found.primal)
    if why:
        raise Refusal(f"the primal is not sound: {why}")
    if value(found.primal) != found.bound:
        raise Refusal(f"the primal's value is {value(found.primal)}, and {found.bound} is printed")
    return True


def main():
    argparse.ArgumentParser(description=__doc__, formatter_class=argparse.RawDescriptionHelpFormatter).parse_args()
    wrong = False
    try:
        for found in replies(sys.stdin.read()):
            try:
                told = f"{found.bound} is the least bound" if checked(found) else \
                    f"{found.bound} is a bound, not shown to be the least: the run ended as {found.stop}"
            except Refusal as refusal:
                wrong, told = True, str(refusal)
            print(f"{name_of(found.entry)}: {told}")
    except Refusal as refusal:
        sys.stdout.flush()
        sys.exit(f"check_primal: refused: {refusal}")
    sys.exit(wrong)


if __name__ == "__main__":
    ended(main)

#!/usr/bin/env python3
"""Makes a dual in small whole numbers of the multipliers that a solver of Delsarte's linear program gives.

    $ printf 'c 0 1.0\\nc 1 0.2\\nc 2 0.2\\ny 10 3.2\\ny 12 9.6\\n' | tools/submit_dual.py d13 13 6
    # A(13,6) <= 32, by the premises A(13,6,10) <= 4, A(13,6,12) <= 1
    submit d13
    kind = "dual"
    n = 13
    d = 6
    even = true
    c = [5, 1, 1]
    y = [[10, 16], [12, 48]]
    end

Standard input has a multiplier a line: `c K VALUE` for the inequality of the number K, from 0 on, and, where there is no weight, `y I VALUE`
for the upper bound on the words at distance I; a value is a decimal or a fraction. What is not named is 0. Multipliers may be scaled by any
positive number. With f(i) the sum of c_k times the scheme's number at (k,i) (Krawtchouk's, or that of the Johnson scheme in the form of
docs/FORMATS.md), a dual has f(i) <= y_i, or <= 0 where y_i isn't named, at each distance of the entry.

Values are rounded to whole numbers on the coarsest scale that still gives the bound of the multipliers as they are. What rounding breaks is
mended: c_0 is lowered by as much as f is too great, and raised where it may be, since the scheme's number 0 is 1 everywhere. Where the multipliers
themselves miss an inequality by more than --slack times c_0 + y_i, nothing is written, and standard error says which and by how much. A line
`u I VALUE` says that the words at distance I are VALUE at most, as `show` tells of A(n,d,I), with d + 1 for an odd d; where none does, Johnson's
bound is taken here, and the program takes the best that its table has. What each --cite says, 1 to 200 bytes of printable ASCII, is what the
document cites.

With --odd M, an odd number, the multipliers are to show that no code has M words, by parity (docs/RULES.md, "An odd number of words"):

    $ printf 'c 0 1\\nc 1 1/3\\nc 2 1/3\\ny 8 16/3\\n' | tools/submit_dual.py o9 9 4 --odd 21
    # A(9,4) <= 20, by the premises A(9,4,8) <= 1
    submit o9
    kind = "odd"
    n = 9
    d = 4
    even = true
    m = 21
    c = [3, 1, 1]
    y = [[8, 16]]
    end

With --local, at an entry with weight, `y I VALUE` is for the bound on the words at distance 2I from a word, as the doubly constant code that they
are or by A(n,d,2I), and `u I VALUE` says what A(n,d,2I) is at most (docs/RULES.md, "Seen from a word: jlocal"):

    $ printf 'c 0 8\\nc 1 1\\ny 2 8\\n' | tools/submit_dual.py j8 8 4 4 --local
    # A(8,4,4) <= 15, with at most 12 words at distance 4 from a word
    submit j8
    kind = "jlocal"
    n = 8
    d = 4
    w = 4
    c = [8, 1]
    y = [[2, 8]]
    end"""

import argparse
import re
import sys
from fractions import Fraction
from functools import cache
from math import comb, factorial, gcd

from check_derivation import doubly
from code_tables.cites import check_cites, citing
from code_tables.ending import ended
from code_tables.sessions import LAST, Refusal, is_entry, name_of, number_of
from code_tables.words import check_id

# The greatest bound of the table, and the greatest odd number of words that a document states.
MOST, MOST_ODD = 2 ** LAST, 2 ** 20 - 1
# A decimal or a fraction, of no more digits than a number of 64 bits with its scale can need.
VALUE = re.compile(r"[+-]?(?:[0-9]{1,400}(?:\.[0-9]{0,400})?|\.[0-9]{1,400})(?:[eE][+-]?[0-9]{1,3})?|[+-]?[0-9]{1,400}/[0-9]{1,400}")


@cache
def scheme_number(n, w, k, i):
    """Krawtchouk's number without weight, the Johnson scheme's with one."""
    if w is None:
        return sum((-1) ** j * comb(i, j) * comb(n - i, k - j) for j in range(min(i, k) + 1))
    return sum((-1) ** j * comb(i, j) ** 2 * factorial(j) * comb(w - i, k - j) * comb(n - w - i, k - j) * factorial(k - j)
               for j in range(min(i, k) + 1))


@cache
def johnson(n, d, w):
    """Johnson's bound of A(n,d,w), by V0, V1, V2, V4, V5."""
    if d > 2 * min(w, n - w):
        return 1
    if d == 2 * w:
        return n // w
    return min(comb(n, w), n * johnson(n - 1, d, w - 1) // w, n * johnson(n - 1, d, w) // (n - w))


class Program:
    """The inequalities of an entry, with bounds on the words at a distance where they are better than Johnson's; the odd number of words
    that is to be excluded, where there is one; and whether, at an entry with weight, the words at a distance from a word are bounded."""

    def __init__(self, n, d, w, odd=None, uppers=None, local=False):
        entry = (n, d) if w is None else (n, d, w)
        if not is_entry(entry):
            raise Refusal(f"{name_of(entry)} is no entry of the table")
        if odd is not None and (w is not None or odd % 2 == 0 or not 3 <= odd <= MOST_ODD):
            raise Refusal(f"--odd takes an odd number from 3 to {MOST_ODD}, at an entry without weight")
        if local and w is None:
            raise Refusal("--local takes an entry with weight")
        self.n, self.d, self.w, self.even, self.odd, self.uppers, self.local = n, d, w, w is None and d % 2 == 0, odd, uppers or {}, local
        self.degree = n if w is None else min(w, n - w)
        step = 2 if self.even else 1
        self.range = range(d if w is None else d // 2, self.degree + 1, step)

    def f(self, c, i):
        """The sum of the multipliers times the scheme's numbers at an index."""
        return sum(x * scheme_number(self.n, self.w, k, i) for k, x in enumerate(c) if x)

    def missed(self, c, y):
        """Each index at which f is above what is allowed, with f and that."""
        return [(i, self.f(c, i), y.get(i, 0)) for i in self.range if self.f(c, i) > y.get(i, 0)]

    def premise(self, i):
        """The entry that bounds the words at a distance."""
        return self.n, self.d + self.d % 2, 2 * i if self.local else i

    def upper(self, i):
        """The bound on the words at a distance."""
        seen = doubly(self.w, i, self.n - self.w, i, self.d) if self.local else MOST
        return min(johnson(*self.premise(i)), self.uppers.get(i, MOST), seen)

    def spread(self, c, y):
        """What the sum of f over the pairs of a code is at most, for each of its words: f(0) and what the y add."""
        products = {i: v * self.upper(i) for i, v in y.items()}
        if self.local:
            return self.f(c, 0) + sum(products.values())
        far = max((p for i, p in products.items() if 2 * i >= 2 * self.n - self.d), default=0)
        return self.f(c, 0) + far + sum(p for i, p in products.items() if 2 * i < 2 * self.n - self.d)

    def least_sum(self, c):
        """What the sum of f over the pairs of an odd number of words is at least."""
        return c[0] * self.odd ** 2 + sum(x * comb(self.n, k) for k, x in enumerate(c) if k)

    def bound(self, c, y):
        """The bound of a dual; nothing where it doesn't exclude the odd number of words."""
        if self.odd is None:
            return self.spread(c, y) // c[0]
        return self.odd - 1 if self.least_sum(c) > self.odd * self.spread(c, y) else None

    def mended(self, c, named):
        """The multipliers with c_0 lowered by what is too much at an index that isn't named, and with the greatest c_0 for which nothing is; each
        with the least y at the named indices."""
        excess = max((self.f(c, i) for i in self.range if i not in named), default=0)
        for lead in sorted({c[0] - excess, min(c[0], c[0] - excess)}):
            if lead >= 1:
                made = [lead, *c[1:]]
                yield made, {i: self.f(made, i) for i in named if self.f(made, i) > 0}


def value_of(word):
    """The decimal or fraction that a word writes, or None."""
    try:
        return Fraction(word) if VALUE.fullmatch(word) else None
    except ZeroDivisionError:
        return None


def read_multipliers(lines, program):
    """The multipliers c and y of the lines; their bounds on the words at a distance go to the program."""
    read = {"c": {}, "y": {}, "u": program.uppers}
    for number, line in enumerate(lines, 1):
        words = line.split()
        if not words or line.startswith("#"):
            continue
        if len(words) != 3 or words[0] not in read:
            raise Refusal(f"line {number} has not the form `c K VALUE`, `y I VALUE` or `u I VALUE`")
        name, at, value = words[0], number_of(words[1]), value_of(words[2])
        if at is None:
            raise Refusal(f"line {number}: {words[1]} is no whole number below 2^64")
        if value is None:
            raise Refusal(f"line {number}: {words[2]} is no decimal and no fraction")
        if at > program.degree if name == "c" else at not in program.range or program.w is not None and not program.local:
            raise Refusal(f"line {number}: there is no {'bound' if name == 'u' else 'multiplier'} {name} {at} at this entry")
        if name == "u" and (value < 1 or value.denominator != 1):
            raise Refusal(f"line {number}: {words[2]} is no number of words from 1 on")
        read[name][at] = value if name != "u" else int(value)
    return [read["c"].get(k, Fraction(0)) for k in range(program.degree + 1)], read["y"]


def check(program, c, y, slack):
    """Refuses multipliers that are negative, or that miss an inequality, by more than the slack."""
    most = max(map(abs, c))
    if c[0] <= 0:
        raise Refusal("c 0 is not above 0")
    for name, at, value in [("c", k, x) for k, x in enumerate(c)] + [("y", i, x) for i, x in y.items()]:
        if value < -slack * most:
            raise Refusal(f"{name} {at} is {float(value):g}, below 0")
    said = []
    for i, value, allowed in program.missed(c, y):
        if value - allowed > slack * (c[0] + allowed):
            said.append(f"missed at {i}: f is {float(value):g}, above {float(allowed):g} by {float(value - allowed):g}")
    if said:
        raise Refusal("; ".join(said))


def scales():
    """Scales from coarse to fine."""
    yield from range(1, 2001)
    yield from (2 ** e for e in range(11, 63))


def whole_dual(program, c, y):
    """A dual in whole numbers that gives the bound of the multipliers, on the coarsest scale that does."""
    c, named = [max(Fraction(0), x) for x in c], {i for i, x in y.items() if x > 0}
    fine = list(program.mended([x / c[0] * 2 ** 200 for x in c], named))
    if not fine:
        raise Refusal("no dual is near these multipliers: c 0 would have to be lowered to 0")
    goal = min((bound for bound in (program.bound(*dual) for dual in fine) if bound is not None), default=None)
    if goal is None:
        least, most = (float(x / fine[0][0][0]) for x in (program.least_sum(fine[0][0]), program.odd * program.spread(*fine[0])))
        raise Refusal(f"the multipliers don't exclude {program.odd} words: L is {least:g}, not above {program.odd}·E = {most:g}, with c_0 = 1")
    for start in (min(x for x in c if x > 0), max(c)):
        for scale in scales():
            for made in program.mended([round(x / start * scale) for x in c], named):
                if max([*made[0], *made[1].values()]) < 2 ** 63 and is_as_good(program.bound(*made), goal):
                    return made
    raise Refusal(f"no dual in whole numbers below 2^63 gives the bound {goal}")


def is_as_good(bound, goal):
    """Whether a bound, where there is one, is no greater than another."""
    return bound is not None and bound <= goal


def reduced(c, y):
    """A dual without a common divisor, and without zeros at the end of c."""
    shared = gcd(*c, *y.values())
    c, y = [x // shared for x in c], {i: x // shared for i, x in sorted(y.items())}
    while len(c) > 1 and c[-1] == 0:
        c.pop()
    return c, y


def document(program, c, y):
    """The document of a dual."""
    kind = "jlocal" if program.local else "jdual" if program.w is not None else "dual" if program.odd is None else "odd"
    lines = [f'kind = "{kind}"', f"n = {program.n}", f"d = {program.d}"]
    lines += [f"w = {program.w}"] * (program.w is not None) + ["even = true"] * program.even + [f"m = {program.odd}"] * (kind == "odd") + [f"c = {c}"]
    return "\n".join(lines + [f"y = {[[i, x] for i, x in y.items()]}"] * bool(y))


def submission(name, program, c, y, cites=()):
    """The submission of a dual, with the texts that it cites."""
    c, y = reduced(c, y)
    entry = (program.n, program.d) if program.w is None else (program.n, program.d, program.w)
    if program.local:
        premises, said = [f"{program.upper(i)} words at distance {2 * i}" for i in y], "with at most {} from a word"
    else:
        premises, said = [f"{name_of(program.premise(i))} <= {program.upper(i)}" for i in y], "by the premises {}"
    remark = f"# {name_of(entry)} <= {program.bound(c, y)}" + (", " + said.format(", ".join(premises)) if premises else "")
    return "\n".join([remark, f"submit {name}", citing(document(program, c, y), cites), "end", ""])


def whole(word):
    """The number that a word of the command line writes."""
    number = number_of(word)
    if number is None:
        raise argparse.ArgumentTypeError(f"{word} is no whole number below 2^64")
    return number


def main():
    parser = argparse.ArgumentParser(description=__doc__, formatter_class=argparse.RawDescriptionHelpFormatter)
    parser.add_argument("id", help="the id of the piece")
    parser.add_argument("n", type=whole)
    parser.add_argument("d", type=whole)
    parser.add_argument("w", type=whole, nargs="?")
    parser.add_argument("--odd", type=whole, metavar="M", help="the odd number of words that the dual is to exclude")
    parser.add_argument("--local", action="store_true", help="bounds on the words at a distance, at an entry with weight")
    parser.add_argument("--cite", action="append", default=[], metavar="TEXT", help="where the dual comes from, as the document cites it: up to 16 times")
    parser.add_argument("--slack", type=Fraction, default=Fraction(1, 10 ** 6), help="the part of c_0 and y by which f may be too great (1e-6)")
    options = parser.parse_args()
    try:
        check_id(options.id)
        check_cites(options.cite)
        program = Program(options.n, options.d, options.w, options.odd, local=options.local)
        c, y = read_multipliers(sys.stdin, program)
        check(program, c, y, options.slack)
        sys.stdout.write(submission(options.id, program, *whole_dual(program, c, y), options.cite))
    except Refusal as refusal:
        sys.exit(f"submit_dual: refused: {refusal}")


if __name__ == "__main__":
    ended(main)

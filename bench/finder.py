#!/usr/bin/env python3
"""The finder's run over fractions, for the duals that its tests expect.

    finder.py [--longest N] [--turns T] [N D [W]]

Without an entry it writes a line for each entry of the table with n up to N (12) that has d at most n: `N D BOUND STOP`, `N D even BOUND STOP`
or `N D W BOUND STOP`. STOP is `least Q I:A ..` with the run's primal, `turns T` or `wide X`; the bound is that of the dual that `find` or `find_weight`
answers, `none` where there is none. The rows are fractions here, each a positive multiple of the row of whole numbers without a common divisor; nothing is shared
with the program.
"""
import argparse
from fractions import Fraction
from math import comb, factorial, gcd

WIDEST = 2**63 - 1
# The greatest bound of the table.
GREATEST = 2**30


def krawtchouk(n, k, i):
    return sum((-1) ** j * comb(i, j) * comb(n - i, k - j) for j in range(k + 1))


def johnson(n, w, k, i):
    return sum(
        (-1) ** j * comb(i, j) ** 2 * factorial(j) * comb(w - i, k - j) * comb(n - w - i, k - j) * factorial(k - j)
        for j in range(k + 1)
    )


def whole(row):
    """The row of whole numbers without a common divisor of which this is a positive multiple."""
    scale = 1
    for entry in row:
        scale = scale * entry.denominator // gcd(scale, entry.denominator)
    numbers = [int(entry * scale) for entry in row]
    common = gcd(*numbers)
    return [number // common for number in numbers] if common else numbers


def run(number, degree, indices, turns):
    """How the run ends, with the cost row and the other rows and the places of their basic columns where it ends as least: ('least', row, pairs),
    ('turns', None, None) or ('wide', x, None)."""
    columns = [("z", 0)] + [("a", i) for i in indices] + [("s", k) for k in range(1, degree + 1)] + [("constant", 0)]
    first_s = 1 + len(indices)
    rows = []
    for k in range(1, degree + 1):
        row = [Fraction(0)] * len(columns)
        for place, (kind, index) in enumerate(columns):
            if kind == "a":
                row[place] = Fraction(-number(k, index))
            elif kind == "s":
                row[place] = Fraction(int(index == k))
            elif kind == "constant":
                row[place] = Fraction(number(k, 0))
        rows.append([row, first_s + k - 1])
    cost = [Fraction({"z": 1, "a": -1}.get(kind, 0)) for kind, _ in columns]
    made = 0
    while True:
        entering = next((place for place in range(1, len(columns) - 1) if cost[place] < 0), None)
        if entering is None:
            return "least", whole(cost), [(whole(row), basic) for row, basic in rows]
        if made == turns:
            return "turns", None, None
        candidates = [pair for pair in rows if pair[0][entering] > 0]
        if candidates:
            pivot = min(candidates, key=lambda pair: (pair[0][-1] / pair[0][entering], pair[1]))
            for pair in rows:
                if pair is not pivot:
                    pair[0] = [x - pair[0][entering] / pivot[0][entering] * y for x, y in zip(pair[0], pivot[0])]
            cost = [x - cost[entering] / pivot[0][entering] * y for x, y in zip(cost, pivot[0])]
            pivot[1] = entering
            for row in [pair[0] for pair in rows] + [cost]:
                for x in whole(row):
                    if abs(x) > WIDEST:
                        return "wide", x, None
        made += 1


def primal(indices, pairs):
    """The scale of the primal that the last rows give, its numbers by index, and the first number that is too large, or None."""
    of_a = [(row[basic], row[-1], indices[basic - 1]) for row, basic in pairs if basic <= len(indices)]
    scale, scales = 1, []
    for entry, _, _ in of_a:
        scale = scale // gcd(scale, entry) * entry
        scales.append(scale)
    numbers = {index: Fraction(constant, entry) * scale for entry, constant, index in of_a}
    made = scales + [numbers[index] for _, _, index in of_a]
    return scale, {i: int(numbers[i]) for i in sorted(numbers) if numbers[i] > 0}, next((int(x) for x in made if x > WIDEST), None)


def check_primal(n, w, indices, scale, numbers):
    """Whether the primal is sound, and its value."""
    degree, number = (n, lambda k, i: krawtchouk(n, k, i)) if w is None else (min(w, n - w), lambda k, i: johnson(n, w, k, i))
    sound = scale >= 1 and all(i in indices and a >= 0 for i, a in numbers.items())
    sound = sound and all(scale * number(k, 0) + sum(a * number(k, i) for i, a in numbers.items()) >= 0 for k in range(1, degree + 1))
    return sound, min(GREATEST, (scale + sum(numbers.values())) // scale)


def dual(n, d, w=None, even=False, turns=20000):
    """The multipliers of the dual that is answered, or None, how the run stopped, and f(0)."""
    if w is None:
        degree, least, number = n, d, lambda k, i: krawtchouk(n, k, i)
    else:
        degree, least, number = min(w, n - w), d // 2, lambda k, i: johnson(n, w, k, i)
    indices = [i for i in range(least, degree + 1) if not even or i % 2 == 0]
    stop, end, pairs = run(number, degree, indices, turns)
    if stop == "least":
        first_s = 1 + len(indices)
        c = [end[0]] + end[first_s : first_s + degree]
    elif w is None:
        c = [1] * (n + 1)
    else:
        c = None
    text = {"least": stop, "turns": f"turns {turns}", "wide": f"wide {end}"}[stop]
    if stop == "least":
        scale, numbers, large = primal(indices, pairs)
        text = " ".join([stop, str(scale)] + [f"{i}:{a}" for i, a in numbers.items()]) if large is None else f"wide {large}"
    return c, text, c and sum(c[k] * number(k, 0) for k in range(degree + 1))


def find(n, d, w=None, even=False, turns=20000):
    """The bound, or None, and how the run stopped."""
    c, text, at_zero = dual(n, d, w, even, turns)
    return c and min(GREATEST, at_zero // c[0]), text


def line(n, d, w, even, turns):
    bound, stop = find(n, d, w, even, turns)
    marks = f" {w}" if w is not None else " even" if even else ""
    return f"{n} {d}{marks} {'none' if bound is None else bound} {stop}"


def main():
    parser = argparse.ArgumentParser(description=__doc__, formatter_class=argparse.RawDescriptionHelpFormatter)
    parser.add_argument("entry", nargs="*", type=int)
    parser.add_argument("--longest", type=int, default=12)
    parser.add_argument("--turns", type=int, default=20000)
    options = parser.parse_args()
    if options.entry:
        n, d = options.entry[:2]
        w = options.entry[2] if len(options.entry) > 2 else None
        print(line(n, d, w, False, options.turns))
        if w is None and d % 2 == 0:
            print(line(n, d, w, True, options.turns))
        return
    for n in range(1, options.longest + 1):
        for d in range(3, n + 1):
            print(line(n, d, None, False, options.turns))
            if d % 2 == 0:
                print(line(n, d, None, True, options.turns))
                for w in range(n + 1):
                    print(line(n, d, w, False, options.turns))


if __name__ == "__main__":
    main()

#!/usr/bin/env python3
"""The bound on doubly constant weight codes beside the greatest size that such a code has, found by an exhaustive search.

    doubly.py [--longest N]
    doubly.py --write

A row of bench/doubly.tsv has n1, w1, n2, w2 and d, the stated bound and the greatest size, for all n1 + n2 up to 8 and all even d from 4 to n1 + n2.
The first form works both out again for n1 + n2 up to N (8) and compares them with the rows; it ends with 1 where they differ, or where a
bound is below the greatest size. The second form writes the rows. The bound is worked out as it is stated, by recursion; the search knows
the words and their distances alone."""

import argparse
import sys
from functools import cache
from itertools import combinations
from math import comb
from pathlib import Path

ROWS = Path(__file__).resolve().parent / "doubly.tsv"
NAMES = ["n1", "w1", "n2", "w2", "d", "bound", "greatest"]
LONGEST = 8


def squares(n, w, words):
    """n·q² + 2qr + r, where w·words is nq + r and r is below n; 0 where n is 0."""
    if n == 0:
        return 0
    each, over = divmod(w * words, n)
    return n * each * each + 2 * each * over + over


def counted(n1, w1, n2, w2, d):
    """The bound that asks for no other."""
    if d > 2 * (min(w1, n1 - w1) + min(w2, n2 - w2)):
        return 1
    bound = min(comb(n1, w1) * comb(n2, w2), 2 ** 30)
    for words in range(2, 1001):
        if (w1 + w2) * words ** 2 - squares(n1, w1, words) - squares(n2, w2, words) < d // 2 * words * (words - 1):
            return min(bound, words - 1)
    return bound


@cache
def after(rounds, n1, w1, n2, w2, d):
    """The bound after so many rounds."""
    if rounds == 0:
        return counted(n1, w1, n2, w2, d)
    less = rounds - 1
    bounds = [after(less, n1, w1, n2, w2, d)]
    if w1 >= 1:
        bounds.append(n1 * after(less, n1 - 1, w1 - 1, n2, w2, d) // w1)
    if w1 < n1:
        bounds.append(n1 * after(less, n1 - 1, w1, n2, w2, d) // (n1 - w1))
    if w2 >= 1:
        bounds.append(n2 * after(less, n1, w1, n2 - 1, w2 - 1, d) // w2)
    if w2 < n2:
        bounds.append(n2 * after(less, n1, w1, n2 - 1, w2, d) // (n2 - w2))
    return min(bounds)


def words_of(n, w):
    """The words of length n and weight w."""
    return [sum(1 << p for p in places) for places in combinations(range(n), w)]


def greatest(n1, w1, n2, w2, d):
    """The greatest size of a code, by a search for the largest clique of words that are far enough apart; words are coloured so that two of one
    colour are close, and no more words than colours are left to take."""
    words = [x << n2 | y for x in words_of(n1, w1) for y in words_of(n2, w2)]
    far = [sum(1 << j for j, y in enumerate(words) if (x ^ y).bit_count() >= d) for x in words]
    most = 0

    def search(size, left):
        nonlocal most
        most = max(most, size)
        coloured, colours, uncoloured = [], 0, left
        while uncoloured:
            colours += 1
            free = uncoloured
            while free:
                place = free.bit_length() - 1
                coloured.append((place, colours))
                uncoloured &= ~(1 << place)
                free &= ~(1 << place) & ~far[place]
        for place, colour in reversed(coloured):
            if size + colour <= most:
                return
            search(size + 1, left & far[place])
            left &= ~(1 << place)

    search(0, (1 << len(words)) - 1)
    return most


@cache
def greatest_in_order(first, last, d):
    """The same where the halves are in order, and no half has more ones than zeros."""
    return greatest(*first, *last, d)


def row(n1, w1, n2, w2, d):
    halves = sorted([(n1, min(w1, n1 - w1)), (n2, min(w2, n2 - w2))])
    return [n1, w1, n2, w2, d, after(3, n1, w1, n2, w2, d), greatest_in_order(*halves, d)]


def rows(longest):
    return [row(n1, w1, n - n1, w2, d) for n in range(1, longest + 1) for n1 in range(n + 1) for w1 in range(n1 + 1)
            for w2 in range(n - n1 + 1) for d in range(4, n + 1, 2)]


def main():
    parser = argparse.ArgumentParser(description=__doc__, formatter_class=argparse.RawDescriptionHelpFormatter)
    parser.add_argument("--longest", type=int, default=LONGEST)
    parser.add_argument("--write", action="store_true")
    options = parser.parse_args()
    if options.write:
        lines = [NAMES, *rows(LONGEST)]
        ROWS.write_text("".join("\t".join(map(str, line)) + "\n" for line in lines))
        return 0
    kept = [[int(cell) for cell in line.split("\t")] for line in ROWS.read_text().splitlines()[1:]]
    stated = {tuple(line[:5]): line[5:] for line in kept}
    found = rows(options.longest)
    wrong = [line for line in found if line[5] < line[6] or stated.get(tuple(line[:5]), line[5:]) != line[5:]]
    for line in wrong:
        print("wrong:", *line)
    exact = sum(line[5] == line[6] for line in found)
    print(f"{len(found)} rows, the bound is the greatest size in {exact}, {len(wrong)} wrong")
    return 1 if wrong else 0


if __name__ == "__main__":
    sys.exit(main())

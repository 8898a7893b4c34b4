#!/usr/bin/env python3
"""Looks for partitions of the words of one length and weight into codes at distance 4, and for their products.

    partitions.py FROM TO STEPS > SESSION

A class is looked for by a tabu search over the words that M of the N places turned in a cycle move apart: its M translates are then M classes
of one size, and the words that are left go into further classes one by one. The best M is taken for each length from FROM to TO and each
weight. Then each A(n,4,w) of a table without evidence that a product of two of these betters is written, with the partitions that it names."""

import random
import sys
import textwrap
from itertools import combinations
from math import comb
from pathlib import Path

TOP = Path(__file__).resolve().parent.parent
sys.path.insert(0, str(TOP / "tools"))

import table
from code_tables.cites import citing

EXTRA = 4


def words_of(n, w):
    """All words of a length and weight."""
    return [sum(1 << i for i in places) for places in combinations(range(n), w)]


def turned(word, m, by):
    """A word with its first m places turned in a cycle."""
    low = word & ((1 << m) - 1)
    return word >> m << m | ((low << by | low >> (m - by)) & ((1 << m) - 1))


def independent(near, steps, chance):
    """A set of vertices without neighbours among each other, as great as a tabu search finds."""
    size = len(near)
    chosen, against, tabu, best = set(), [0] * size, [0] * size, set()
    for step in range(steps):
        free = [v for v in range(size) if v not in chosen and (tabu[v] <= step or against[v] == 0)]
        if not free:
            continue
        least = min(against[v] for v in free)
        vertex = chance.choice([v for v in free if against[v] == least])
        for other in [u for u in near[vertex] if u in chosen]:
            chosen.remove(other)
            tabu[other] = step + 7 + chance.randrange(10)
            for u in near[other]:
                against[u] -= 1
        chosen.add(vertex)
        for u in near[vertex]:
            against[u] += 1
        if len(chosen) > len(best):
            best = set(chosen)
    return best


def partition(n, w, m, steps, chance):
    """The classes that m turned places give, the greatest first."""
    words = words_of(n, w)
    orbit = {word: min(turned(word, m, by) for by in range(m)) for word in words}
    moved = [word for word in words if len({turned(word, m, by) for by in range(m)}) == m
             and all((word ^ turned(word, m, by)).bit_count() for by in range(1, m))]
    near = [[j for j, other in enumerate(moved) if other != word and ((word ^ other).bit_count() < 4 or orbit[word] == orbit[other])] for word in moved]
    chosen = [moved[v] for v in independent(near, steps, chance)]
    classes = [[turned(word, m, by) for word in chosen] for by in range(m)] if chosen else []
    taken = {word for one in classes for word in one}
    for word in words:
        if word not in taken:
            place = next((one for one in classes if all((word ^ other).bit_count() >= 4 for other in one)), None)
            if place is None:
                classes.append([word])
            else:
                place.append(word)
    return sorted(classes, key=len, reverse=True)


def best_partitions(lengths, steps):
    """The best partition of each length and weight, by the sum of the squares of its sizes."""
    chance, found = random.Random(1), {}
    for n in lengths:
        for w in range(n // 2 + 1):
            tried = [partition(n, w, m, steps, chance) for m in range(n - EXTRA + 1, n + 1)] if 1 < w else [[[word] for word in words_of(n, w)]]
            found[n, w] = max(tried, key=lambda classes: sum(len(one) ** 2 for one in classes))
            found[n, n - w] = [[word ^ (1 << n) - 1 for word in one] for one in found[n, w]]
            print(f"{n} {w}: {' '.join(map(str, map(len, found[n, w])))}", file=sys.stderr, flush=True)
    return found


def product(found, m, n, w, parity):
    """The pairs of weights of a product of length m + n and its number of words."""
    pairs = [(v, w - v) for v in range(parity, m + 1, 2) if 0 <= w - v <= n]
    return sum(len(a) * len(b) for u, v in pairs for a, b in zip(found[m, u], found[n, v])), m, pairs


# Where products of partitions are from.
SOURCES = ["C. L. M. van Pul and T. Etzion, New lower bounds for constant weight codes, IEEE Trans. Inform. Theory 35 (1989), 1324-1329",
           "A. E. Brouwer, J. B. Shearer, N. J. A. Sloane and W. D. Smith, A new table of constant weight codes, IEEE Trans. Inform. Theory 36 (1990), "
           "1334-1380"]


def document(name, fields, remark, cites=()):
    """A submission with what it is, and what it cites."""
    return "\n".join([*(f"# {line}" for line in textwrap.wrap(remark, 118)), f"submit {name}", citing("\n".join(fields), cites), "end\n"])


def listed(classes, n):
    """The classes as a list of lists of words."""
    texts = ["[" + ", ".join(f'"{word:0{n}b}"' for word in sorted(one)) + "]" for one in classes]
    return "classes = [\n  " + "\n  ".join(textwrap.wrap(", ".join(texts), 118)) + "]"


def written(found, low):
    """The session of the products that better lower bounds, with the partitions that they name."""
    lengths = sorted({n for n, _ in found})
    named, products = set(), []
    for n in range(2 * lengths[0], min(2 * lengths[-1], table.LAST) + 1):
        for w in range(2, n // 2 + 1):
            size, m, pairs = max(product(found, m, n - m, w, parity) for m in lengths if n - m in lengths for parity in (0, 1))
            if size > low[n, 4, w]:
                products.append((n, w, size, m, pairs))
                named |= {(m, u) for u, _ in pairs} | {(n - m, v) for _, v in pairs}
    yield ("# Partitions of the words of one length and weight into codes at distance 4, and their products (van Pul and Etzion 1989; Brouwer, Shearer,\n"
           "# Sloane and Smith 1990). A search found the partitions (bench/partitions.py). They need no other session.\n")
    for n, w in sorted(named):
        classes = found[n, w]
        fields = ['kind = "partition"', f"n = {n}", "d = 4", f"w = {w}", f"d1 = {2 if len(classes) > 1 else 4}", listed(classes, n)]
        many = "codes" if len(classes) > 1 else "code"
        yield document(f"p{n}-{w}", fields, f"The words of length {n} and weight {w}, {comb(n, w)}, in {len(classes)} {many} at distance 4.")
    for n, w, size, m, pairs in products:
        texts = ", ".join(f'["p{m}-{u}", "p{n - m}-{v}"]' for u, v in pairs)
        fields = ['kind = "product"', f"n = {n}", "d = 4", f"w = {w}", f"pairs = [{texts}]"]
        yield document(f"product{n}-{w}", fields, f"{size} words of length {n} and weight {w} at distance 4, as products of partitions of the lengths {m} and {n - m}.",
                       SOURCES)


def main():
    first, last, steps = map(int, sys.argv[1:])
    found = best_partitions(range(first, last + 1), steps)
    low = {entry: pair[0] for entry, pair in table.held("", table.ask_all()).bounds.items() if len(entry) == 3}
    print("\n".join(written(found, low)), end="")


if __name__ == "__main__":
    main()

#!/usr/bin/env python3
"""Writes crates/ct_finder_tests/data/bounds.toml: the duals of all entries of n up to 12, and of runs that end otherwise, by finder.py.

    finder_rows.py > crates/ct_finder_tests/data/bounds.toml
"""
import finder


def row(n, d, mark, turns):
    w = mark if isinstance(mark, int) else None
    bound, stop = finder.find(n, d, w, mark == "even", turns)
    c, _, _ = finder.dual(n, d, w, mark == "even", turns)
    said = "none" if bound is None else f"{bound} {stop}: {' '.join(map(str, c))}"
    shown = mark if isinstance(mark, int) else f'"{mark}"'
    return f'  [{n}, {d}, {shown}, "{said}"],'


def group(turns, entries):
    print(f"\n[[group]]\nturns = {turns}\nrows = [")
    for n, d, mark in entries:
        print(row(n, d, mark, turns))
    print("]")


def entries(longest, greatest):
    for n in range(1, longest + 1):
        for d in range(3, greatest + 1):
            yield n, d, ""
            if d % 2 == 0:
                yield n, d, "even"
                for w in range(n + 1):
                    yield n, d, w


def main():
    print("# Entries, and the duals that are found for them with at most so many turns: length, distance, a weight or a mark, and the bound with")
    print("# the end of the run and the multipliers. Written by bench/finder_rows.py, which knows the run over fractions alone.")
    group(20000, entries(12, 13))
    group(20000, [(16, 6, "even"), (26, 4, ""), (28, 4, ""), (30, 4, ""), (30, 30, ""), (22, 6, 11), (28, 4, 14), (30, 4, 15), (24, 8, 8), (23, 6, 11)])
    for turns in range(3):
        group(turns, [(16, 6, "even"), (6, 3, ""), (30, 3, ""), (8, 4, 4), (6, 4, 3)])


if __name__ == "__main__":
    main()

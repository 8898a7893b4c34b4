#!/usr/bin/env python3
"""Looks for better codes of constant weight at all entries that a library leaves open, by bench/weight_codes.c.

    weight_codes.py FOLDER SECONDS SESSION ..

The sessions are run, and each entry A(n,d,w) with w at most n/2 whose bounds are apart is given so many seconds, the smallest first. FOLDER
gets a session for each entry that became better, `n-d-w.session`, with the group above it; a code that is there already is begun from. What
better codes give at other entries by lengthening, shortening and lesser distances is taken into account. Nothing is written elsewhere: what
is worth it goes to examples/library by hand."""

import re
import subprocess
import sys
import textwrap
from math import comb
from pathlib import Path

TOP = Path(__file__).resolve().parent.parent
sys.path.insert(0, str(TOP / "tools"))

import table

MOST_WORDS, MOST_SUBSETS = 4000, 3_500_000


def close(low):
    """Raises lower bounds of A(n,d,w) by the rules that need no evidence, until nothing rises."""
    changed = True
    while changed:
        changed = False
        for n, d, w in low:
            near = [low.get((n - 1, d, w), 1) if w <= n - 1 else 1, low.get((n - 1, d, w - 1), 1), low.get((n, d + 2, w), 1), low[n, d, n - w]]
            if (n + 1, d, w) in low:
                near += [-(-(w + 1) * low[n + 1, d, w + 1] // (n + 1)), -(-(n + 1 - w) * low[n + 1, d, w] // (n + 1))]
            if max(near) > low[n, d, w]:
                low[n, d, w], changed = max(near), True


def search(program, entry, seconds, seed, least):
    """The best code that is found: the group and the words, or nothing."""
    ended = subprocess.run([program, *map(str, entry), str(seconds), str(seed), str(least)], stdout=subprocess.PIPE, text=True)
    codes = [block.split("\n") for block in ended.stdout.split("\n\n") if block.strip()]
    return (codes[-1][0].split(" ", 1)[1], codes[-1][1:]) if codes else None


def described(group):
    """A group as the search tells it, as a remark says it: nothing twice, one of a thing in the singular."""
    parts = [part for part in dict.fromkeys(group.split(", ")) if part not in ("0 fixed", "on 1 copies")]
    parts = [re.sub(r"^(\d+) fixed$", lambda m: f"{m[1]} fixed place" + "s" * (m[1] != "1"), part) for part in parts]
    return re.sub(r"\b1 (cycle|copie)s\b", lambda m: "1 " + m[1].replace("copie", "copy"), ", ".join(parts)).replace("the fixed ones", "the fixed places")


def submission(entry, group, words):
    """The code as a submission with what it is."""
    n, d, w = entry
    group = described(group)
    remark = textwrap.wrap(f"{len(words)} words of length {n} and weight {w} at distance {d}, a union of orbits of a permutation group ({group}) "
                           "that a search found (bench/weight_codes.c).", 118)
    rows = textwrap.wrap(", ".join(f'"{word}"' for word in sorted(words)), 118)
    return "\n".join([*(f"# {line}" for line in remark), f"submit w{n}-{d}-{w}", 'kind = "words"', f"n = {n}", f"d = {d}", f"w = {w}", "words = [",
                      *(f"  {row}" for row in rows[:-1]), f"  {rows[-1]}]", "end"]) + "\n"


def main():
    folder, seconds, sessions = Path(sys.argv[1]), float(sys.argv[2]), sys.argv[3:]
    folder.mkdir(parents=True, exist_ok=True)
    program = str(folder / "weight_codes")
    subprocess.run(["cc", "-O3", "-march=native", "-o", program, str(TOP / "bench/weight_codes.c")], check=True)
    bounds = table.held(table.read_sessions(sessions), table.ask_all()).bounds
    low = {entry: pair[0] for entry, pair in bounds.items() if len(entry) == 3}
    for kept in folder.glob("*.session"):
        entry = tuple(map(int, kept.stem.split("-")))
        low[entry] = max(low[entry], kept.read_text().count('"') // 2 - 1)
    close(low)
    wanted = [e for e in low if e[1] <= 2 * e[2] <= e[0] and low[e] < bounds[e][1] and low[e] <= MOST_WORDS and comb(e[0], e[2]) <= MOST_SUBSETS]
    for seed, entry in enumerate(sorted(wanted, key=lambda e: (e[1] == 4, low[e] * e[0], e))):
        n, d, w = entry
        found = low[entry] < bounds[entry][1] and search(program, entry, seconds, seed, low[entry])
        if found and len(found[1]) <= MOST_WORDS:
            print(f"A({n},{d},{w}) >= {len(found[1])}, before {low[entry]}, at most {bounds[entry][1]}: {found[0]}", flush=True)
            (folder / f"{n}-{d}-{w}.session").write_text(submission(entry, *found))
            low[entry] = len(found[1])
            close(low)


if __name__ == "__main__":
    main()

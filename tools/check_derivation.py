#!/usr/bin/env python3
"""Checks a derivation document, as `explain` writes it, without the program: it was written from the descriptions of the formats and the
rules alone (docs/FORMATS.md, docs/RULES.md) and shares no code with the program. It answers as the program's `verify` does.

    $ printf 'derivation\\nline 1 upper 11 6 4 value 6 by V8\\ndone\\n' | tools/check_derivation.py
    yes
    $ printf 'derivation\\nline 1 upper 11 6 4 value 5 by V8\\ndone\\n' | tools/check_derivation.py
    no 2 value 5 6

Ends with 0 after `yes` and with 1 after `no`. Documents of evidence are read by Python's tomllib, which knows TOML 1.0, and not the
few forms that 1.1 adds."""

import argparse
import re
import sys

if sys.version_info < (3, 11):
    sys.exit("check_derivation: Python 3.11 or later is needed, and this is %d.%d" % sys.version_info[:2])

import tomllib
from functools import cache
from itertools import combinations
from math import comb, factorial

# The greatest length and distance of the table, and its greatest bound.
LAST = 30
MAX = 2 ** LAST


class No(Exception):
    """The reason why a line fails."""


def require(condition, why="form"):
    """Fails for a reason, that the line has no form where none is given, unless a condition holds."""
    if not condition:
        raise No(why)


def ball(n, radius):
    """The number of words within a distance of a word."""
    return sum(comb(n, j) for j in range(radius + 1))


def up(a, b):
    """a / b, rounded up."""
    return -(-a // b)


def in_table(entry):
    """Whether the table has an entry."""
    n, d, w = (*entry, None)[:3]
    return 1 <= n <= LAST and 3 <= d <= LAST and (w is None or d % 2 == 0 and w <= n)


def scheme_number(n, w, k, i):
    """Krawtchouk's number, or with a weight the Johnson scheme's."""
    if w is None:
        return sum((-1) ** j * comb(i, j) * comb(n - i, k - j) for j in range(min(i, k) + 1))
    return sum((-1) ** j * comb(i, j) ** 2 * factorial(j) * comb(w - i, k - j) * comb(n - w - i, k - j) * factorial(k - j)
               for j in range(min(i, k) + 1))


# ---- the rules: each gives the premises and what is made of their values, or nothing where it isn't defined. `formula` may give nothing.
def number(value):
    """A rule without premises."""
    return [], lambda: value


def same(*entry):
    """A rule that hands on the value of one premise."""
    return [entry], lambda v: v


def plotkin(n, d):
    """Plotkin's bound, of an odd distance that of one digit and one distance more; where lengths are twice the distance, 4d."""
    n, d = n + d % 2, d + d % 2
    return number(2 * (d // (2 * d - n))) if d <= n < 2 * d else n == 2 * d and number(4 * d)


def johnson_bound(n, d):
    """Johnson's bound of an odd distance, from the number of words at that distance of a word that are close to each other no more than it."""
    half, most = (d + 1) // 2, n // ((d + 1) // 2)

    def bound(u):
        """The bound from the premise's value."""
        rest = comb(n, half) - comb(d, half - 1) * u
        return 2 ** n * most // (most * ball(n, half - 1) + rest) if rest > 0 else None
    return d % 2 and d <= n and ([(n, d + 1, d)], bound)


def sum_class(n, d, w, r):
    """The number of words of weight w whose places, from 0 on, have a sum that leaves r modulo n."""
    count = [[1] + [0] * (n - 1)] + [[0] * n for _ in range(w)]
    for place in range(n):
        for k in range(w, 0, -1):
            count[k] = [have + count[k - 1][(s - place) % n] for s, have in enumerate(count[k])]
    return d == 4 and r < n and count[w][r] > 0 and number(count[w][r])


def column_pairs(n, d, w):
    """One less than the least number m of words for which the pairs of ones in columns are too many."""
    for m in range(2, 1001 if 2 * w >= d else 0):
        q, r = divmod(w * m, n)
        if n * q * (q - 1) + 2 * q * r > (w - d // 2) * m * (m - 1):
            return number(m - 1)
    return None


def by_spread(piece, bound):
    """A rule of a dual: its premises are at the distances at which it has a y; the bound is made of its spread, E = f(0) + S + T."""
    (n, d), charged = piece.entry, [(i, y) for i, y in piece.y.items() if y]

    def value(*uppers):
        """The bound from the premises' values."""
        products = [(2 * i >= 2 * n - d, y * u) for (i, y), u in zip(charged, uppers)]
        far, near = ([p for is_far, p in products if is_far == side] for side in (True, False))
        return bound(piece.f(0) + max(far, default=0) + sum(near))
    return [(n, 2 * up(d, 2), i) for i, _ in charged], value


def size_below(piece):
    """The rule of a dual with an odd number m: m - 1, where over the pairs of m words f adds up to more than m times the spread."""
    least = piece.c[0] * piece.m ** 2 + sum(c * comb(piece.n, k) for k, c in enumerate(piece.c) if k)
    return by_spread(piece, lambda spread: piece.m - 1 if least > piece.m * spread else None)


def least_squares(n, w, m):
    """The squares of the ones at n places of m words of weight w, added up, at least."""
    q, r = divmod(w * m, n) if n else (0, 0)
    return n * q * q + 2 * q * r + r


@cache
def doubly(n1, w1, n2, w2, d, rounds=3):
    """A bound on the codes whose words have w1 ones on the first n1 places and w2 on the last n2; each round takes out a place."""
    if not rounds:
        if d > 2 * (min(w1, n1 - w1) + min(w2, n2 - w2)):
            return 1
        counts = (m - 1 for m in range(2, 1001) if (w1 + w2) * m * m - least_squares(n1, w1, m) - least_squares(n2, w2, m) < d // 2 * m * (m - 1))
        return min(comb(n1, w1) * comb(n2, w2), MAX, next(counts, MAX))
    shorter = [(n1, w1, (n1 - 1, w1 - 1, n2, w2)), (n1, n1 - w1, (n1 - 1, w1, n2, w2)),
               (n2, w2, (n1, w1, n2 - 1, w2 - 1)), (n2, n2 - w2, (n1, w1, n2 - 1, w2))]
    return min([doubly(n1, w1, n2, w2, d, rounds - 1), *(n * doubly(*code, d, rounds - 1) // k for n, k, code in shorter if k)])


def seen_from_a_word(piece):
    """The rule of a dual that looks at a code from a word: the words at an index are, that word added, a doubly constant code."""
    (n, d, w), charged = piece.entry, [(i, y) for i, y in piece.y.items() if y]

    def value(*uppers):
        """The bound from the premises' values."""
        return (piece.f(0) + sum(y * min(u, doubly(w, i, n - w, i, d)) for (i, y), u in zip(charged, uppers))) // piece.c[0]
    return [(n, d, 2 * i) for i, _ in charged], value


CODES = ("words", "cosets", "build", "product")
NAMING = {
    "L10": (2, CODES, lambda piece: number(piece.size)), "M10": (3, CODES, lambda piece: number(piece.size)),
    "U11": (2, ("dual",), lambda piece: by_spread(piece, lambda spread: spread // piece.c[0])),
    "U12": (2, ("odd",), size_below),
    "V9": (3, ("jdual",), lambda piece: number(piece.f(0) // piece.c[0])),
    "V10": (3, ("jlocal",), seen_from_a_word),
}
PLAIN = {
    "L1": lambda n, d: number(1),
    "L2": lambda n, d: d <= n and number(2),
    "L3": lambda n, d: same(n - 1, d),
    "L4": lambda n, d: same(n, d + 1),
    "L5": lambda n, d: d % 2 == 0 and same(n - 1, d - 1),
    "L6": lambda n, d: same(n + 1, d + 1),
    "L7": lambda n, d: ([(n + 1, d)], lambda v: up(v, 2)),
    "L8": lambda n, d: n % 2 == 0 and (([(n // 2, d)], lambda a: 2 ** (n // 2 - 1) * a) if d < 5
                                       else ([(n // 2, up(d, 2)), (n // 2, d)], lambda a, b: a * b)),
    "L9": lambda n, d, w: same(n, 2 * up(d, 2), w),
    "L11": lambda n, d, m, c: 1 <= m < n and c >= 3 and d - c >= 3 and ([(m, c), (n - m, d - c)], min),
    "U0": lambda n, d: number(2 ** n),
    "U1": lambda n, d: d > n and number(1),
    "U2": plotkin,
    "U3": lambda n, d: number(2 ** n // ball(n, (d - 1) // 2)),
    "U4": lambda n, d: d % 2 and same(n + 1, d + 1),
    "U5": lambda n, d: same(n - 1, d - 1),
    "U6": lambda n, d: ([(n - 1, d)], lambda v: 2 * v),
    "U7": lambda n, d: same(n, d - 1),
    "U8": lambda n, d: same(n + 1, d),
    "U9": johnson_bound,
    "U10": lambda n, d, w: w <= n and ([(n, d, w)], lambda v: 2 ** (n - 1) * v // comb(n, w)),
}
WEIGHTED = {
    "M1": lambda n, d, w: number(1),
    "M2": lambda n, d, w: 2 * w == d and number(2 * n // d),
    "M3": lambda n, d, w: same(n - 1, d, w),
    "M4": lambda n, d, w: w >= 1 and same(n - 1, d, w - 1),
    "M5": lambda n, d, w: ([(n + 1, d, w + 1)], lambda v: up((w + 1) * v, n + 1)),
    "M6": lambda n, d, w: ([(n + 1, d, w)], lambda v: up((n + 1 - w) * v, n + 1)),
    "M7": lambda n, d, w: same(n, d, n - w),
    "M8": lambda n, d, w: same(n, d + 2, w),
    "M9": sum_class,
    "V0": lambda n, d, w: number(comb(n, w)),
    "V1": lambda n, d, w: d > 2 * min(w, n - w) and number(1),
    "V2": lambda n, d, w: d == 2 * w and number(n // max(w, 1)),
    "V3": lambda n, d, w: same(n, d, n - w),
    "V4": lambda n, d, w: w >= 1 and ([(n - 1, d, w - 1)], lambda v: n * v // w),
    "V5": lambda n, d, w: w < n and ([(n - 1, d, w)], lambda v: n * v // (n - w)),
    "V6": lambda n, d, w: 1 <= w <= n - 1 and ([(n - 1, d, w), (n - 1, d, w - 1)], lambda a, b: a + b),
    "V7": lambda n, d, w: same(n, d - 2, w),
    "V8": column_pairs,
}
ARGUMENTS = {"L9": 1, "L10": 1, "L11": 2, "M9": 1, "M10": 1, "U10": 1, "U11": 1, "U12": 1, "V9": 1, "V10": 1}


def rule_at(pieces, name, entry, arguments):
    """A rule at an entry, or nothing where it isn't defined there: where its condition fails, or a premise is outside the table."""
    if name in NAMING:
        (length, kinds, make), piece = NAMING[name], pieces.get(arguments[0])
        rule = make(piece) if piece and piece.kind in kinds and len(entry) == length and piece.entry == entry else None
    else:
        make = (PLAIN if len(entry) == 2 else WEIGHTED).get(name)
        rule = make(*entry, *arguments) if make else None
    return rule if rule and all(map(in_table, rule[0])) else None


# ---- evidence: each kind reads its fields in order, then is checked
SAME_CHECK = {"jdual": "dual", "odd": "dual", "jlocal": "dual"}
SAME_FORM = {"cosets": "words", **SAME_CHECK}
KINDS = ("words", "cosets", "partition", "build", "product", "dual", "jdual", "odd", "jlocal")
JOHNSON = ("jdual", "jlocal")
OPERATIONS = {"lengthen": (), "append_one": (), "parity": (), "puncture": ("places",), "shorten": ("places", "digits"),
              "translate": ("by",), "complement": (), "select": ("by",), "uuv": (), "juxtapose": (), "trim": ("size",)}
ID = re.compile("[a-z][a-z0-9_-]{0,31}")
CITE = re.compile("[ -~]{1,200}")


def is_number(value, least, most=2 ** 63):
    """Whether a value is a whole number of a range."""
    return type(value) is int and least <= value <= most


def is_list(value, fits):
    """Whether a value is a list of values that fit."""
    return isinstance(value, list) and all(map(fits, value))


def is_texts(value):
    """Whether a value is a list of texts."""
    return is_list(value, lambda text: isinstance(text, str))


def is_id(value):
    """Whether a value is the text of an id."""
    return isinstance(value, str) and bool(ID.fullmatch(value))


def is_cite(value):
    """Whether a value is a text that a document may cite."""
    return isinstance(value, str) and bool(CITE.fullmatch(value))


def is_whole(value):
    """Whether each whole number of a value is one of 64 bits."""
    if isinstance(value, (dict, list)):
        return all(map(is_whole, value.values() if isinstance(value, dict) else value))
    return type(value) is not int or -2 ** 63 <= value < 2 ** 63


class Piece:
    """A piece of evidence: read from its document, then checked over the pieces before it."""

    def __init__(self, document):
        """Reads a document, and refuses the first fault of its form."""
        if len(document) > 4194304:
            raise No(f"bytes {len(document)}")
        try:
            self.table = tomllib.loads(document.removeprefix(b"\xef\xbb\xbf").decode())
        except (ValueError, RecursionError):
            raise No("toml") from None
        require(is_whole(self.table), "toml")
        self.kind = self.table.get("kind")
        require(self.kind in KINDS, "kind")
        self.known, self.lists, self.parts, self.y, self.w = {"kind"}, [], [], {}, None
        self.format = self.field("format", lambda v: is_number(v, 1, 2), 1)
        weighted, op = self.kind not in ("cosets", "dual", "odd") and "w" in self.table, self.table.get("op")
        even = weighted or self.kind in JOHNSON or self.kind == "build" and op == "select"
        self.n = self.field("n", lambda v: is_number(v, 1, LAST))
        self.d = self.field("d", lambda v: is_number(v, 3, LAST) and not (even and v % 2))
        if weighted or self.kind in JOHNSON:
            self.w = self.field("w", lambda v: is_number(v, 0, self.n))
        self.entry = (self.n, self.d) if self.w is None else (self.n, self.d, self.w)
        getattr(self, "read_" + SAME_FORM.get(self.kind, self.kind))()
        self.cites = self.field("cites", lambda v: is_list(v, is_cite) and len(v) <= 16, []) if self.format == 2 else []
        require(not set(self.table) - self.known, "unknown")
        for at, (word, length) in enumerate((word, length) for words, length in self.lists for word in words):
            require(re.fullmatch("[01]{%d}" % length, word), f"digits {at}")
        self.numbers = [[int(word, 2) for word in words] for words, _ in self.lists]

    def field(self, name, fits, default=None):
        """The value at a key, refused where it doesn't fit."""
        self.known.add(name)
        if name not in self.table and default is not None:
            return default
        require(name in self.table and fits(self.table[name]), f"field {name}")
        return self.table[name]

    def read_words(self):
        """The fields of words, or of cosets."""
        names = ("basis", "representatives") if self.kind == "cosets" else ("words",)
        self.lists = [(self.field(name, is_texts), self.n) for name in names]

    def read_partition(self):
        """The fields of a partition."""
        self.between = self.field("d1", lambda v: is_number(v, 1, self.d))
        self.lists = [(words, self.n) for words in self.field("classes", lambda v: is_list(v, is_texts))]

    def read_product(self):
        """The fields of a product."""
        pairs = self.field("pairs", lambda v: is_list(v, lambda p: is_list(p, is_id) and len(p) == 2)
                           and 1 <= len(v) <= (1 if self.w is None else LAST + 1))
        self.parts = [name for pair in pairs for name in pair]

    def read_dual(self):
        """The fields of a dual, with a weight or without."""
        degree = self.n if self.w is None else min(self.w, self.n - self.w)
        even = self.kind not in JOHNSON and self.field("even", lambda v: v is False or v is True and self.d % 2 == 0, default=False)
        if self.kind == "odd":
            self.m = self.field("m", lambda v: is_number(v, 3, 2 ** 20 - 1) and v % 2)
        self.c = self.field("c", lambda v: is_list(v, lambda x: is_number(x, 0)) and 1 <= len(v) <= degree + 1)
        self.range = [i for i in range(self.d if self.w is None else self.d // 2, degree + 1) if not even or i % 2 == 0]
        if self.kind != "jdual":
            self.y = dict(self.field("y", lambda v: is_list(v, lambda p: is_list(p, lambda x: is_number(x, 0)) and len(p) == 2
                                                            and p[0] in self.range) and [i for i, _ in v] == sorted({i for i, _ in v}), []))

    def read_build(self):
        """The fields of a build."""
        self.op = op = self.field("op", lambda v: isinstance(v, str) and v in OPERATIONS)
        require(not (op in ("lengthen", "append_one", "parity", "juxtapose") and self.n < 2 or op == "uuv" and self.n % 2), "field n")
        require(op != "select" if self.w is None else op not in ("puncture", "translate", "uuv"), "field w")
        own, self.places = OPERATIONS[op], []
        if "places" in own:
            self.places = self.field("places", lambda v: is_list(v, lambda p: is_number(p, 0, self.n + len(v) - 1)) and v
                                     and v == sorted(set(v)) and self.n + len(v) <= LAST)
        for name, length in ("digits", len(self.places)), ("by", self.n):
            if name in own:
                self.lists = [([self.field(name, lambda v: isinstance(v, str))], length)]
        self.most = self.field("size", lambda v: is_number(v, 1, 262144)) if "size" in own else 0
        self.parts = [self.field(name, is_id) for name in ("part", "other")[:1 + (op in ("uuv", "juxtapose"))]]

    def f(self, i):
        """The dual's sum at an index."""
        return sum(c * scheme_number(self.n, self.w, k, i) for k, c in enumerate(self.c) if c)

    def check(self, pieces):
        """Refuses what isn't as stated, over the pieces before."""
        for name in self.parts:
            require(name in pieces, f"nosuch {name}")
        self.stored = sum(map(len, self.numbers))
        parts = [pieces[name] for name in self.parts]
        getattr(self, "check_" + SAME_CHECK.get(self.kind, self.kind))(*([parts] if parts else []))

    def check_words(self):
        """Refuses words that are not as stated."""
        require(0 < len(self.numbers[0]) <= 16384, f"size {len(self.numbers[0])}")
        check_list(self.n, self.numbers[0], self.w, self.d)
        self.code, self.size = sorted(self.numbers[0]), len(self.numbers[0])

    def check_cosets(self):
        """Refuses cosets that are not as stated. The first word of a pair that is too close may be taken to be a representative."""
        basis, self.chosen = self.numbers
        count, k = len(self.chosen), len(basis)
        require(k <= LAST, f"size {k}")
        require(0 < count <= 4096, f"size {count}")
        require(count * (count + 1) // 2 << k <= 2 ** 24, f"work {count * (count + 1) // 2 << k}")
        self.size = count << k
        near = Near(sum_planes(self.n, basis, self.chosen), self.size)
        for a, one in enumerate(self.chosen):
            found = near.first_below(one, self.d, (a << k) + 1)
            require(not found, "close {} {} {}".format(a << k, *found) if found else "")

    def check_partition(self):
        """Refuses a partition that is not as stated."""
        words, of = [word for one in self.numbers for word in one], [i for i, one in enumerate(self.numbers) for _ in one]
        require(0 < len(self.numbers) <= 4096, f"size {len(self.numbers)}")
        require(all(self.numbers), "size 0")
        require(0 < len(words) <= 16384, f"size {len(words)}")
        check_list(self.n, words, self.w, self.d, self.between, of)

    def check_product(self, parts):
        """Refuses a product that its parts do not make."""
        for at, part in enumerate(parts):
            first = parts[at - at % 2]
            fits = part.kind == "partition" and (part.n + first.n == self.n if at % 2 else part.n == parts[0].n)
            fits = fits and (self.w is None or part.w is not None and (at % 2 == 0 or part.w + first.w == self.w))
            require(fits, f"part {self.parts[at]}")
        self.pairs = list(zip(parts[::2], parts[1::2]))
        self.size = sum(len(a) * len(b) for x, y in self.pairs for a, b in zip(x.numbers, y.numbers))
        distances = [min(x.d, y.d, x.between + y.between) for x, y in self.pairs]
        distances += [2 * abs(x.w - z.w) for (x, _), (z, _) in combinations(self.pairs, 2)]
        require(min(distances) >= self.d, f"short {min(distances)} {self.d}")

    def check_dual(self):
        """Refuses a dual that misses an inequality."""
        require(self.c[0], "lead")
        for i in self.range:
            require(self.f(i) <= self.y.get(i, 0), f"above {i} {self.f(i)} {self.y.get(i, 0)}")

    def words(self):
        """The words of the piece's code, ascending."""
        if self.kind == "cosets":
            sums = [0]
            for word in self.numbers[0]:
                sums += [word ^ other for other in sums]
            return sorted(a ^ s for s in sums for a in self.chosen)
        if self.kind == "product":
            return sorted(a << y.n | b for x, y in self.pairs for one, other in zip(x.numbers, y.numbers) for a in one for b in other)
        return self.code

    def fits(self, part, first):
        """Whether a part of a build has the length and the weight that the operation asks for; `first` is the part before it."""
        if self.op == "juxtapose":
            length = part.n < self.n if first is None else part.n + first.n == self.n
            return length and (self.w is None or part.w is not None and (first is None or part.w + first.w == self.w))
        length = self.n // 2 if self.op == "uuv" else self.n + len(self.places) - (self.op in ("lengthen", "append_one", "parity"))
        if self.w is None or self.op == "select" or part.w is None or part.n != length:
            return part.n == length and (part.w is None if self.op == "select" else self.w is None)
        ones = self.lists[0][0][0].count("1") if self.op == "shorten" else 0
        return self.w == {"append_one": part.w + 1, "parity": up(part.w, 2) * 2, "complement": self.n - part.w}.get(self.op, part.w - ones)

    def check_build(self, parts):
        """Refuses a build that its parts do not make, and builds its code."""
        for at, part in enumerate(parts):
            require(part.kind in CODES and self.fits(part, parts[0] if at else None), f"part {self.parts[at]}")
        d, e, sizes = parts[0].d, parts[-1].d, [part.size for part in parts]
        distance = {"parity": d + d % 2, "puncture": max(0, d - len(self.places)), "select": d + d % 2, "uuv": min(2 * d, e),
                    "juxtapose": d + e}.get(self.op, d)
        require(distance >= self.d, f"short {distance} {self.d}")
        for size in sizes + [sizes[0] * sizes[-1]] * (self.op == "uuv"):
            require(size <= 262144, f"size {size}")
        require(self.op != "trim" or sizes[0] >= self.most, f"few {sizes[0]} {self.most}")
        self.code = sorted(self.built([part.words() for part in parts], parts[-1].n))
        self.stored = self.size = len(self.code)
        require(self.code, "empty")

    def built(self, codes, length):
        """The words of the construction."""
        code = codes[0]
        if self.op in ("puncture", "shorten"):
            left = [p for p in range(length) if p not in self.places]
            runs = [(min(run), len(run)) for run in consecutive(left)]
            at = sum(1 << length - 1 - p for p in self.places)
            digits = self.lists[0][0][0] if self.op == "shorten" else ""
            wanted = sum(1 << length - 1 - p for p, digit in zip(self.places, digits) if digit == "1")
            chosen = [x for x in code if x & at == wanted] if digits else code
            parts = []
            for first, size in runs:
                shift, mask, behind = length - first - size, (1 << size) - 1, sum(p >= first + size for p in left)
                parts.append([(x >> shift & mask) << behind for x in chosen])
            return set(map(sum, zip(*parts)))
        if self.op in ("translate", "complement", "select"):
            by = 2 ** self.n - 1 if self.op == "complement" else self.numbers[0][0]
            return [x ^ by for x in code if self.op != "select" or (x ^ by).bit_count() == self.w]
        return {
            "lengthen": lambda: [2 * x for x in code],
            "append_one": lambda: [2 * x + 1 for x in code],
            "parity": lambda: [2 * x + x.bit_count() % 2 for x in code],
            "uuv": lambda: [u << length | u ^ v for u in code for v in codes[1]],
            "juxtapose": lambda: [a << length | b for a, b in zip(*codes)],
            "trim": lambda: code[:self.most],
        }[self.op]()


def consecutive(places):
    """Ascending places in runs of neighbours."""
    runs = []
    for place in places:
        if runs and runs[-1][-1] == place - 1:
            runs[-1].append(place)
        else:
            runs.append([place])
    return runs


def check_list(n, words, w, d, between=None, classes=None):
    """Refuses the first word of another weight, the first pair of equal words, the first pair that is too close: d is the distance within a
    class, and that of all pairs where there are no classes, and `between` that of words of two classes."""
    for i, word in enumerate(words):
        require(w is None or word.bit_count() == w, f"weight {i}")
    last = {word: i for i, word in enumerate(words)}
    for i, word in enumerate(words):
        require(last[word] == i, f"repeated {i} {words.index(word, i + 1) if last[word] != i else i}")
    near, behind = Near(sum_planes(n, [], words), len(words)), {}
    if classes:
        behind = {of: i + 1 for i, of in enumerate(classes)}
    for i, word in enumerate(words):
        stop = behind[classes[i]] if classes else len(words)
        found = near.first_below(word, d, i + 1, stop)
        if found:
            raise No("close {} {} {}".format(i, *found) + (f" classes {classes[i]} {classes[i]} need {d}" if classes else ""))
        found = near.first_below(word, between, stop) if classes else None
        if found:
            raise No("close {} {} {}".format(i, *found) + f" classes {classes[i]} {classes[found[0]]} need {between}")


# ---- distances of many words at once: a plane is a number that has a bit for each word, and a list of planes, lowest first, a number for each
def sum_planes(n, basis, chosen):
    """The planes of the digits, lowest first, of the sums of each chosen word with all sums of the basis, those of one word together."""
    planes, count = [0] * n, 1
    for word in basis:
        every = (1 << count) - 1
        planes = [plane | (plane ^ (every if word >> p & 1 else 0)) << count for p, plane in enumerate(planes)]
        count *= 2
    if len(chosen) == 1:
        return [plane ^ ((1 << count) - 1 if chosen[0] >> p & 1 else 0) for p, plane in enumerate(planes)]
    texts = [(f"{plane:0{count}b}", f"{plane ^ (1 << count) - 1:0{count}b}") for plane in planes]
    return [int("".join(texts[p][word >> p & 1] for word in reversed(chosen)), 2) for p in range(n)]


def added(a, b):
    """The sums of numbers."""
    found, carry = [], 0
    for p in range(max(len(a), len(b))):
        x, y = a[p] if p < len(a) else 0, b[p] if p < len(b) else 0
        both = x ^ y
        found.append(both ^ carry)
        carry = x & y | both & carry
    return found + [carry] if carry else found


class Near:
    """Finds which of many words are near to a word. Distances are added up from those in parts of at most ten digits, which are kept."""

    def __init__(self, planes, count):
        """Takes the planes of the words' digits, and their number."""
        self.every, self.kept = (1 << count) - 1, {}
        self.parts = [(p, planes[p:p + 10]) for p in range(0, len(planes), 10)]

    def part(self, first, planes, digits):
        """The distances from digits in a part."""
        if (first, digits) not in self.kept:
            found = []
            for p, plane in enumerate(planes):
                found = added(found, [plane ^ (self.every if digits >> p & 1 else 0)])
            self.kept[first, digits] = found
        return self.kept[first, digits]

    def first_below(self, word, least, start, stop=None):
        """The first place from a start on, before a stop, whose word has a distance below the least, with that; or nothing."""
        distances = []
        for first, planes in self.parts:
            distances = added(distances, self.part(first, planes, word >> first & 1023))
        below = 0
        for p in range(max(len(distances), least.bit_length())):
            zeros = self.every ^ distances[p] if p < len(distances) else self.every
            below = below | zeros if least >> p & 1 else below & zeros
        below >>= start
        if stop is not None:
            below &= (1 << stop - start) - 1
        if not below:
            return None
        place = start + (below & -below).bit_length() - 1
        return place, sum((plane >> place & 1) << p for p, plane in enumerate(distances))


# ---- the document
def words_of(line):
    """The words of a line, in ASCII."""
    require(line.isascii())
    return [word for word in line.decode().removesuffix("\r").split(" ") if word]


def value_of(word):
    """The number that a word writes."""
    require(re.fullmatch("0|[1-9][0-9]{0,19}", word) and int(word) < 2 ** 64)
    return int(word)


def read_block(lines, at):
    """The id and the document of a block of evidence, and the place behind it."""
    words = words_of(lines[at])
    require(len(words) in (2, 4) and is_id(words[1]))
    if len(words) == 4:
        require(words[2] == "lines" and value_of(words[3]) >= 1)
        stop = behind = at + 1 + value_of(words[3])
        require(stop <= len(lines))
    else:
        stop = next((i for i in range(at + 1, len(lines)) if lines[i] in (b"end", b"end\r")), None)
        require(stop is not None)
        behind = stop + 1
    return words[1], b"\n".join(lines[at + 1:stop]), behind


def read_line(words, at):
    """The side, entry, value, rule, arguments and named lines that a line states."""
    require(len(words) > 3 and words[0] == "line" and value_of(words[1]) == at and words[2] in ("lower", "upper") and "value" in words)
    stop = words.index("value")
    entry = tuple(map(value_of, words[3:stop]))
    require(len(entry) in (2, 3) and in_table(entry) and len(words) > stop + 3 and words[stop + 2] == "by")
    value, name = value_of(words[stop + 1]), words[stop + 3]
    require(1 <= value <= MAX and (name in PLAIN or name in WEIGHTED or name in NAMING))
    require((name[0] in "LM") == (words[2] == "lower"))
    arguments, rest = words[stop + 4:stop + 4 + ARGUMENTS.get(name, 0)], words[stop + 4 + ARGUMENTS.get(name, 0):]
    require(len(arguments) == ARGUMENTS.get(name, 0) and (not rest or rest[0] == "from" and len(rest) > 1))
    if name in NAMING:
        require(is_id(arguments[0]))
    else:
        arguments = list(map(value_of, arguments))
    return words[2], entry, value, name, arguments, list(map(value_of, rest[1:]))


def check_line(stated, claims, pieces):
    """The claim of a line, refused where the line is no instance of its rule."""
    side, entry, value, name, arguments, sources = stated
    rule = rule_at(pieces, name, entry, arguments)
    require(rule, "rule")
    premises, formula = rule
    require(len(sources) == len(premises) and all(1 <= p <= len(claims) for p in sources), "premise")
    require(all(claims[p - 1][:2] == (side, premise) for p, premise in zip(sources, premises)), "premise")
    gives = formula(*(claims[p - 1][2] for p in sources))
    require(gives is not None and (side == "upper" or 1 <= gives <= MAX), "rule")
    require(value == min(gives, MAX), f"value {value} {min(gives, MAX)}")
    return side, entry, value


def verdict(document):
    """The verdict on a document, in bytes: `yes`, or the first text line that fails and why."""
    lines = document.removesuffix(b"\n").split(b"\n") if document else []
    pieces, claims, stored, done, at = {}, [], 0, False, 0
    try:
        require(lines and words_of(lines[0]) == ["derivation"])
        at = 1
        while at < len(lines):
            words = words_of(lines[at])
            require(not done and words)
            if words[0] == "evidence" and not claims:
                name, text, behind = read_block(lines, at)
                try:
                    require(name not in pieces, "taken")
                    require(len(pieces) < 1000, "full pieces 1000")
                    piece = Piece(text)
                    piece.check(pieces)
                    stored += piece.stored
                    require(stored <= 1000000, f"full words {stored}")
                except No as why:
                    raise No(f"evidence {why}") from None
                pieces[name], at = piece, behind
            elif words == ["done"]:
                require(claims)
                done, at = True, at + 1
            else:
                claims.append(check_line(read_line(words, len(claims) + 1), claims, pieces))
                at += 1
        require(done)
    except No as why:
        return f"no {at + 1} {why}"
    return "yes"


def main():
    argparse.ArgumentParser(description=__doc__, formatter_class=argparse.RawDescriptionHelpFormatter).parse_args()
    said = verdict(sys.stdin.buffer.read())
    print(said)
    sys.exit(said != "yes")


if __name__ == "__main__":
    main()

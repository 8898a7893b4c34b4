#!/usr/bin/env python3
"""Writes the rows of `ct_rows` that are too long to be written by hand: `made.toml` and the files that it names, into
crates/ct_rows/data or into the folder given. What they say comes from here alone: bounds from the formulas of docs/RULES.md, tried at each
entry until nothing is better, all else by counting. With --check it writes nothing, and ends with 1 where a file there is another."""

import sys
from functools import cache
from itertools import combinations, product
from math import comb, factorial
from pathlib import Path

DATA = Path(__file__).resolve().parent.parent / "crates/ct_rows/data"
MOST = 30
LENGTHS = range(1, MOST + 1)
DISTANCES = range(3, MOST + 1)
EVEN = range(4, MOST + 1, 2)
SAMPLES = [1, 2, 3, 4, 17, 60, 100, 365, 777, 1000, 1999, 2000]


# ---- bounds, by the rules of the table

def weights(n):
    """The weights of the words of a length."""
    return range(n + 1)


@cache
def ball(n, radius):
    """How many words lie within a distance of a word."""
    return sum(comb(n, k) for k in range(radius + 1))


def up(a, b):
    """a / b, rounded up."""
    return -(-a // b)


def plotkin(n, d):
    """Plotkin's bound (U2), where there is one."""
    if d % 2:
        n, d = n + 1, d + 1
    if n == 2 * d:
        return [4 * d]
    return [2 * (d // (2 * d - n))] if d <= n < 2 * d else []


@cache
def too_many(n, d, w):
    """One word fewer than the least number of words that is too many (V8)."""
    for m in range(2, 1001):
        q, r = divmod(w * m, n)
        if n * q * (q - 1) + 2 * q * r > (w - d // 2) * m * (m - 1):
            return [m - 1]
    return []


def lower_plain(low, n, d):
    """What the rules L1 to L9 and L11 give."""
    yield 1
    if d <= n:
        yield 2
    yield from (low[e] for e in [(n - 1, d), (n, d + 1), (n + 1, d + 1)] if e in low)
    if d % 2 == 0 and (n - 1, d - 1) in low:
        yield low[n - 1, d - 1]
    if (n + 1, d) in low:
        yield up(low[n + 1, d], 2)
    half = n // 2
    if n % 2 == 0:
        yield (2 ** (half - 1) if d <= 4 else low[half, up(d, 2)]) * low[half, d]
    if d + d % 2 <= MOST:
        yield from (low[n, d + d % 2, w] for w in weights(n))
    for m, c in product(range(1, n), range(3, d - 2)):
        yield min(low[m, c], low[n - m, d - c])


def upper_plain(high, n, d):
    """What the rules U0 to U10 give."""
    yield 2 ** n
    if d > n:
        yield 1
    yield from plotkin(n, d)
    yield 2 ** n // ball(n, (d - 1) // 2)
    if d % 2 and (n + 1, d + 1) in high:
        yield high[n + 1, d + 1]
    yield from (high[e] for e in [(n - 1, d - 1), (n, d - 1), (n + 1, d)] if e in high)
    if (n - 1, d) in high:
        yield 2 * high[n - 1, d]
    if d % 2 and d <= n and (n, d + 1, d) in high:
        half = up(d, 2)
        most = n // half
        rest = comb(n, half) - comb(d, half - 1) * high[n, d + 1, d]
        if rest > 0:
            yield 2 ** n * most // (most * ball(n, half - 1) + rest)
    if d % 2 == 0:
        yield from (2 ** (n - 1) * high[n, d, w] // comb(n, w) for w in weights(n))


@cache
def sum_classes(n):
    """How many sets of w of the places 0, .., n - 1 add up to r modulo n: by w a list of them by r."""
    counts = [[0] * n for _ in range(n + 1)]
    counts[0][0] = 1
    for place in range(n):
        for w in range(place + 1, 0, -1):
            counts[w] = [have + counts[w - 1][(r - place) % n] for r, have in enumerate(counts[w])]
    return counts


@cache
def largest_sum_class(n, w):
    """How many words the largest class of sums has."""
    return max(sum_classes(n)[w])


def lower_weighted(low, n, d, w):
    """What the rules M1 to M9 give."""
    yield 1
    if d == 4:
        yield largest_sum_class(n, w)
    if d == 2 * w:
        yield n // w
    yield from (low[e] for e in [(n - 1, d, w), (n - 1, d, w - 1), (n, d, n - w), (n, d + 2, w)] if e in low)
    if n < MOST:
        yield up((w + 1) * low[n + 1, d, w + 1], n + 1)
        yield up((n + 1 - w) * low[n + 1, d, w], n + 1)


def upper_weighted(high, n, d, w):
    """What the rules V0 to V8 give."""
    yield comb(n, w)
    if d > 2 * min(w, n - w):
        yield 1
    if d == 2 * w:
        yield n // w
    yield high[n, d, n - w]
    with_one, with_zero = (high.get((n - 1, d, v)) for v in (w - 1, w))
    if with_one is not None:
        yield n * with_one // w
    if with_zero is not None:
        yield n * with_zero // (n - w)
    if with_one is not None and with_zero is not None:
        yield with_one + with_zero
    if (n, d - 2, w) in high:
        yield high[n, d - 2, w]
    if w >= d // 2:
        yield from too_many(n, d, w)


def scheme_number(n, w, k, i):
    """The Krawtchouk number K_k(i) at length n, and with a weight the Johnson number J_k(i)."""
    if w is None:
        return sum((-1) ** j * comb(i, j) * comb(n - i, k - j) for j in range(k + 1))
    return sum((-1) ** j * comb(i, j) ** 2 * factorial(j) * comb(w - i, k - j) * comb(n - w - i, k - j) * factorial(k - j)
               for j in range(min(i, k) + 1))


def by_duals(high, duals, n, d, w=None):
    """What the duals of an entry give (U11, U12, V9)."""
    for _, *entry, c, y, odd in duals:
        if entry == [n, d, w]:
            charges = {i: v * high[n, d + d % 2, i] for i, v in y.items() if v}
            near = sum(charge for i, charge in charges.items() if 2 * i < 2 * n - d)
            far = max([charge for i, charge in charges.items() if 2 * i >= 2 * n - d], default=0)
            spread = sum(m * scheme_number(n, w, k, 0) for k, m in enumerate(c)) + near + far
            if odd is None:
                yield spread // c[0]
            elif c[0] * odd ** 2 + sum(m * comb(n, k) for k, m in enumerate(c) if k) > odd * spread:
                yield odd - 1


def bounds(codes, duals=()):
    """The lower and the upper bound of each entry that the rules give from the sizes of codes (L10, M10) and from duals."""
    entries = list(product(LENGTHS, DISTANCES)) + [(n, d, w) for n in LENGTHS for d in EVEN for w in weights(n)]
    low = dict.fromkeys(entries, 1) | codes
    high = dict.fromkeys(entries, 2 ** MOST)
    before = None
    while before != (low, high):
        before = dict(low), dict(high)
        for e in entries:
            low[e] = max(low[e], *(lower_plain if len(e) == 2 else lower_weighted)(low, *e))
            high[e] = min(high[e], *(upper_plain if len(e) == 2 else upper_weighted)(high, *e), *by_duals(high, duals, *e))
    return low, high


def line(table, *entry):
    """The line of an entry."""
    low, high = (side[entry] for side in table)
    name = f"A({','.join(map(str, entry))})"
    return f"{name} = {low}\n" if low == high else f"{low} <= {name} <= {high}\n"


# ---- codes

def text(word, n):
    """The text of a word."""
    return f"{word:0{n}b}"


def words(n, d, some):
    """A document of words."""
    return f"kind='words'\nn={n}\nd={d}\nwords={[text(x, n) for x in some]}\n"


def cosets(n, d, basis, representatives=()):
    """A document of cosets of the linear code with this basis, of the code alone where no representatives are given."""
    return f"kind='cosets'\nn={n}\nd={d}\nbasis={basis}\nrepresentatives={list(representatives) or ['0' * n]}\n"


def dual(n, d, w, c, y, odd):
    """A document of a dual, of even distances alone where it has no weight; with the odd number of words that it excludes, if it does."""
    if w is not None:
        return f"kind='jdual'\nn={n}\nd={d}\nw={w}\nc={c}\n"
    kind, more = ("dual", "") if odd is None else ("odd", f"m={odd}\n")
    return f"kind='{kind}'\nn={n}\nd={d}\neven=true\n{more}c={c}\ny={[list(pair) for pair in y.items()]}\n"


def build(op, n, d, part, more=""):
    """A document of a build."""
    return f"kind='build'\nop='{op}'\nn={n}\nd={d}\npart='{part}'\n{more}"


def submit(name, document):
    """The command that hands in a document."""
    return f"submit {name}\n{document}end\n"


def span(basis):
    """All sums of some of these words."""
    sums = [0]
    for word in basis:
        sums += [word ^ other for other in sums]
    return sums


# Numbers with at least two ones. A word with a one at a place of its own and the digits of such a number at the end is at distance 3 or more
# from each sum of others.
TAILS = [x for x in range(32) if x.bit_count() >= 2]

# The extended Golay code (MacWilliams and Sloane, chapter 2), and the same without its last place.
GOLAY = [text(0b101011100011 << 12 >> s & ~1 | 1, 24) for s in range(12)]
PUNCTURED = [word[:-1] for word in GOLAY]

# The code of Nordstrom and Robinson (MacWilliams and Sloane, chapter 2): the first-order Reed-Muller code of length 16, and eight cosets of it.
REED_MULLER = [0xFFFF, 0x00FF, 0x0F0F, 0x3333, 0x5555]
NORDSTROM_ROBINSON = [0x0000, 0x111E, 0x0539, 0x036A, 0x065C, 0x1247, 0x1472, 0x1724]

# Fifteen binary linear codes, of which no greater one of their length and distance is known: id, length, distance, basis.
LINEAR = [
    # Golay 1949.
    ("golay", 24, 8, GOLAY),
    # The extended quadratic residue code as a double circulant code; MacWilliams and Sloane, chapter 16.
    ("qr18", 18, 6, [
        "100000011101011111", "110000001110101111", "111000000111010111", "011100000111101011", "001110000111110101", "000111000111111010",
        "000011100011111101", "000001110101111110", "000000111010111111"]),
    # The even words of the Zetterberg code of length 33, shortened at four places and punctured at one.
    ("cyclic33", 28, 5, [text((0b110111111011 << 17 >> s) % 2 ** 28, 28) for s in range(18)]),
    # Wagner 1965, with a parity digit, in a quasi-cyclic form.
    ("wagner", 24, 6, [
        "110000011011001101011100", "111000001101100100101110", "011100001110110000010111", "001110000111011010001011",
        "000111000011101111000101", "000011101001110111100010", "000001111100111001110001", "100000110110011110111000",
        "000010010000100101111000", "100001001000010000111100", "010000100100001000011110", "001000010010000100001111",
        "100100001001000010000111", "010010000100100011000011"]),
    # A double circulant code; MacWilliams and Sloane, chapter 16.
    ("double14", 28, 8, [
        "1110001001011010101010010101", "0111000100101111010101001010", "1011100010010101101010100101", "1101110001001010110101010010",
        "0110111000100101011010101001", "1011011100010010101101010100", "0101101110001001010110101010", "0010110111000100101011010101",
        "1001011011100010010101101010", "0100101101110001001010110101", "0010010110111010100101011010", "0001001011011101010010101101",
        "1000100101101110101001010110", "1100010010110101010100101011"]),
    # A quasi-cyclic code in blocks of 7.
    ("quasi28-10", 28, 10, [
        "0011000101001100011000000101", "0001100110100100001101000010", "0000110111010000000110100001", "0000011011101010000011010000",
        "1000001001110111000000101000", "1100000100111001100000010100", "0111011111000000000011000011", "1011101011100010000001100001",
        "1101110001110001000001110000", "0110111000111000100000111000"]),
    # A quasi-cyclic code in blocks of 8.
    ("quasi24-7", 24, 10, [
        "000010010000001111110101", "100001001000000111111010", "010000101100000001111101", "001000010110000010111110",
        "100100000011000001011111", "010010000001100010101111", "001001000000110011010111"]),
    # The BCH code [31,11,11], shortened at three places.
    ("bch28-8", 28, 11, [text(0b101010110110010001101 << 7 >> s, 28) for s in range(8)]),
    # A residue of the punctured BCH code [50,8,23].
    ("residue27-7", 27, 12, [
        "010010011110110111111011000", "101001001101010101111000000", "000110111001000101000110110", "000000100110111100001011101",
        "000011011100100000100011111", "000001001011100100011111010", "001000010101101111100010100"]),
    # A cyclic code.
    ("quasi21-5", 21, 10, [
        "110000100011001010111", "111000010001100101011", "111100001000110010101", "111110000100011001010", "011111000010001100101"]),
    # Each place of the even code of length 3, three times.
    ("tri9", 9, 6, ["111111000", "000111111"]),
    # The BCH code [31,21,5], shortened at one place.
    ("bch30-20", 30, 5, [text(0b10010110111 << 19 >> s, 30) for s in range(20)]),
    # A quasi-cyclic code in blocks of 15.
    ("quasi30-16", 30, 7, [
        "101011001000100110000100000110", "010101100100010011000010000011", "001010110010001101100001000001", "100101011001000110110000100000",
        "010010101100100011011000010000", "001001010110010001101100001000", "000100101011001000110110000100", "100010010101100000011011000010",
        "010001001010110000001101100001", "001000100101011100000110110000", "100100010010101010000011011000", "110010001001010001000001101100",
        "011001000100101000100000110110", "101100100010010000010000011011", "010110010001001100001000001101", "100001111000000100101010101100"]),
    # A quasi-cyclic code in blocks of 6.
    ("quasi30-12", 30, 9, [
        "101110100101101111111110110110", "010111110010110111011111011011", "101011011001111011101111101101", "110101101100111101110111110110",
        "111010010110111110111011011011", "011101001011011111111101101101", "100101110110011000001111001000", "110010011011001100100111000100",
        "011001101101000110110011000010", "101100110110000011111001000001", "010110011011100001111100100000", "001011101101110000011110010000"]),
    # The BCH code [31,11,11], shortened at one place.
    ("bch30-10", 30, 11, [text(0b101010110110010001101 << 9 >> s, 30) for s in range(10)]),
]

# Duals of Delsarte's linear program, found by the simplex method in fractions (examples/duals.session): id, length, distance, weight,
# multipliers, allowances and an odd number of words that is excluded. Those without weight are of an even distance, and speak of even
# distances alone. That of (9,4) gives 21 by itself and 20 for the number of words (Best, Brouwer, MacWilliams, Odlyzko and Sloane 1978).
DUALS = [
    ("d13", 13, 6, None, [5, 1, 1], {10: 16, 12: 48}, None),
    ("k16", 16, 6, None, [60, 60, 18, 12, 3], {}, None),
    ("j8", 8, 4, 4, [48, 21, 4], {}, None),
    ("j24", 24, 8, 8, [10725120, 1927170, 210924, 17917, 1012], {}, None),
    ("s21", 21, 8, None, [140, 55, 19, 5, 1], {8: 256, 18: 256, 20: 1280}, None),
    ("o9", 9, 4, None, [3, 1, 1], {8: 16}, 21),
]

# For n = 1 to 30 and d = 3 to 30 the greatest dimension k of a binary linear code of length n and distance at least d that is known, from
# the tables of linear codes that the field keeps; such a code has 2^k words. Where numbers are missing at the end of a line they are 0.
BEST_DIMENSIONS = """
0
0
1
1 1
2 1 1
3 2 1 1
4 3 1 1 1
4 4 2 1 1 1
5 4 2 2 1 1 1
6 5 3 2 1 1 1 1
7 6 4 3 2 1 1 1 1
8 7 4 4 2 2 1 1 1 1
9 8 5 4 3 2 1 1 1 1 1
10 9 6 5 4 3 2 1 1 1 1 1
11 10 7 6 5 4 2 2 1 1 1 1 1
11 11 8 7 5 5 2 2 1 1 1 1 1 1
12 11 9 8 6 5 3 2 2 1 1 1 1 1 1
13 12 9 9 7 6 3 3 2 2 1 1 1 1 1 1
14 13 10 9 8 7 4 3 2 2 1 1 1 1 1 1 1
15 14 11 10 9 8 5 4 3 2 2 1 1 1 1 1 1 1
16 15 12 11 10 9 5 5 3 3 2 2 1 1 1 1 1 1 1
17 16 13 12 11 10 6 5 4 3 2 2 1 1 1 1 1 1 1 1
18 17 14 13 12 11 7 6 5 4 2 2 2 1 1 1 1 1 1 1 1
19 18 14 14 12 12 7 7 5 5 3 2 2 2 1 1 1 1 1 1 1 1
20 19 15 14 12 12 8 7 6 5 3 3 2 2 1 1 1 1 1 1 1 1 1
21 20 16 15 13 12 9 8 7 6 4 3 2 2 2 1 1 1 1 1 1 1 1 1
22 21 17 16 14 13 10 9 7 7 5 4 3 2 2 2 1 1 1 1 1 1 1 1 1
23 22 18 17 14 14 10 10 8 7 5 5 3 3 2 2 1 1 1 1 1 1 1 1 1 1
24 23 19 18 15 14 11 10 9 8 6 5 4 3 2 2 2 1 1 1 1 1 1 1 1 1 1
25 24 20 19 16 15 12 11 10 9 6 6 5 4 2 2 2 2 1 1 1 1 1 1 1 1 1 1
"""


# ---- the sample

def standing_pieces(number):
    """What the commands of a sample leave (docs/FORMATS.md): how many submissions are accepted, how many pieces withdrawn, and those that
    stand, by their ids: the entry and the size of a code, with the id of its part if it has one; of a dual nothing. Each submission is
    accepted: a sum class is a code of distance 4, sums of basis words are words of the Golay code, a code keeps its distance where each word
    gets a zero, and f of a dual of n + 1 ones is 0 but at 0."""
    pieces = {}
    accepted = withdrawn = 0
    x = number
    for step in range(1, number + 1):
        x = (x * 1103515245 + 12345) % 2 ** 31
        h = x // 65536
        if step % 3 == 0:
            parts = {piece[2] for piece in pieces.values() if piece}
            del pieces[next(name for name in pieces if name not in parts)]
            withdrawn += 1
            continue
        codes = [(name, piece) for name, piece in pieces.items() if piece and piece[0][0] <= 27]
        piece = None
        if h % 4 == 0:
            n = 8 + h // 4 % 9
            w = 3 + h // 64 % 2
            piece = (n, 4, w), sum_classes(n)[w][h // 256 % n], None
        elif h % 4 == 1:
            piece = (24, 8), 2 ** (1 + h // 4 % 8), None
        elif h % 4 == 3 and codes:
            name, ((n, *rest), size, _) = codes[-1]
            piece = (n + 1, *rest), size, name
        pieces[f"s{step}"] = piece
        accepted += 1
    return accepted, withdrawn, pieces


def sample(number):
    """The output of the mode `sample`. The duals, whose bounds are 2^n, better nothing."""
    accepted, withdrawn, pieces = standing_pieces(number)
    codes = {}
    for piece in filter(None, pieces.values()):
        entry, size, _ = piece
        codes[entry] = max(size, codes.get(entry, 1))
    low, high = bounds(codes)
    sums = {
        "commands": number,
        "accepted": accepted,
        "withdrawn": withdrawn,
        "standing": len(pieces),
        "equal": sum(low[e] == high[e] for e in low),
        "lower": sum(low.values()),
        "upper": sum(high.values()),
    }
    return "".join(f"{name} {value}\n" for name, value in sums.items())


# ---- the file

def literal(value):
    """A value of TOML."""
    if isinstance(value, list):
        return "[" + ", ".join(map(literal, value)) + "]"
    if not isinstance(value, str):
        return str(value)
    if value.endswith("\n") and value.count("\n") > 1:
        return f"'''\n{value}'''"
    return '"' + value.replace("\\", "\\\\").replace('"', '\\"').replace("\n", "\\n").replace("\r", "\\r") + '"'


class Rows:
    """The files as they are made."""

    def __init__(self):
        self.files = {}
        self.parts = []
        self.rows = []

    def part(self, name, input="", output="", times=1, **files):
        """An input and its output that rows come after; each of them may lie in a file."""
        fields = {"name": name, "input": input, "output": output, **files, "times": times if times > 1 else ""}
        self.parts.append(fields)

    def row(self, name, input="", output="", status="Done", after=(), reads=(65536,), **devices):
        """A row."""
        self.rows.append({"name": name, "after": list(after), "reads": list(reads), **devices, "input": input, "status": status, "output": output})

    def file(self, name, contents):
        """A file beside."""
        self.files[name] = contents
        return name

    def made(self):
        """All files, by their names."""
        text = "# Made by bench/rows.py, which says where the numbers come from; what stands here is said at the head of rows.toml.\n"
        for kind, items in (("part", self.parts), ("row", self.rows)):
            for item in items:
                text += f"\n[[{kind}]]\n" + "".join(f"{key} = {literal(value)}\n" for key, value in item.items() if value not in ("", []))
        return self.files | {"made.toml": text}


def write_tables(rows):
    """The whole table without codes, over the linear codes, and over the Golay code with its octads."""
    columns = [(d, None) for d in DISTANCES] + list(product(EVEN, weights(MOST)))
    asked = "".join(f"table {d}\n" if w is None else f"table {d} {w}\n" for d, w in columns)
    asked = rows.file("tables.in", asked)
    linear = {(n, d): 2 ** len(basis) for _, n, d, basis in LINEAR}
    starts = [
        ("without codes", "without-codes", [], {}),
        ("over the linear codes", "linear", [name for name, *_ in LINEAR], linear),
        ("over the octads", "octads", ["golay", "octads"], {(24, 8): 4096, (24, 8, 8): 759}),
    ]
    tables = {}
    for name, short, after, codes in starts:
        table = tables[short] = bounds(codes)
        entries = [(n, d) if w is None else (n, d, w) for d, w in columns for n in LENGTHS if n >= (w or 0)]
        answered = rows.file(f"tables-{short}.out", "".join(line(table, *entry) for entry in entries))
        rows.part(f"tables {name}", input_file=asked, output_file=answered)
        rows.row(f"tables {name}", after=[*after, f"tables {name}"])
    low = tables["linear"][0]
    for n, dimensions in zip(LENGTHS, BEST_DIMENSIONS.strip().split("\n")):
        dimensions = dimensions.split() + ["0"] * len(DISTANCES)
        for d, dimension in zip(DISTANCES, dimensions):
            assert low[n, d] >= 2 ** int(dimension), (n, d)
    write_duals(rows, entries)
    return tables["without-codes"]


def write_codes(rows):
    """Each linear code, and the octads."""
    for name, n, d, basis in LINEAR:
        rows.part(name, submit(name, cosets(n, d, basis)), f"accepted {name} size {2 ** len(basis)}\n")
        rows.row(name, after=[name])
    select = build("select", 24, 8, "golay", f"w=8\nby='{'0' * 24}'\n")
    rows.part("octads", submit("octads", select), "accepted octads size 759\n")


def write_listed(rows):
    """The code of Nordstrom and Robinson, which alone gives its bound, is listed."""
    listed = sorted(x ^ y for x in NORDSTROM_ROBINSON for y in span(REED_MULLER))
    assert all((x ^ y).bit_count() >= 6 for x, y in combinations(listed, 2))
    document = cosets(16, 6, [text(x, 16) for x in REED_MULLER], [text(x, 16) for x in NORDSTROM_ROBINSON])
    lines = "".join(f"{text(x, 16)}\n" for x in listed)
    rows.row("a code is listed", submit("nr", document) + "list 16 6\n", f"accepted nr size 256\ncode 16 6 size {len(listed)}\n{lines}")


def write_realistic(rows):
    """Four pieces of evidence with some bounds, a dump and a column; and that dump in a session of its own, before the same column."""
    documents = {
        "golay": cosets(24, 8, GOLAY),
        "octads": build("select", 24, 8, "golay", f"w=8\nby='{'0' * 24}'\n"),
        "nr": cosets(16, 6, [text(x, 16) for x in REED_MULLER], [text(x, 16) for x in NORDSTROM_ROBINSON]),
        "d13": dual(*DUALS[0][1:]),
    }
    accepted = "accepted golay size 4096\naccepted octads size 759\naccepted nr size 256\naccepted d13\n"
    table = bounds({(24, 8): 4096, (24, 8, 8): 759, (16, 6): 256}, DUALS[:1])
    entries = [(24, 8), (23, 7), (24, 8, 8), (23, 8, 7), (22, 8, 6), (21, 8, 5), (20, 8, 4), (16, 6), (15, 5), (13, 6), (14, 6), (15, 6)]
    shows = "".join(f"show {' '.join(map(str, e))}\n" for e in entries)
    column = "".join(line(table, n, 6) for n in LENGTHS)
    pieces = (f"submit {name} lines {document.count(chr(10))}\n{document}" for name, document in documents.items())
    dump = f"# dump of {len(documents)} pieces\n" + "".join(pieces)
    session = "".join(submit(name, document) for name, document in documents.items()) + shows + "dump\ntable 6\n"
    output = accepted + "".join(line(table, *e) for e in entries) + dump + column
    rows.row("codes and a dual, dumped", session, output)
    rows.row("that dump of codes and a dual", dump + "table 6\n", accepted + column)
    write_failing_devices(rows, session, output)


def write_failing_devices(rows, session, output):
    """The same session where the first reads of seven bytes, and writes of sixteen, fail one by one: what was written before stays."""
    assert "end\n" not in session[:7 * 40] and len(output) > 16 * 40
    rows.part("codes and a dual", session)
    for call in range(41):
        rows.row(f"codes and a dual: read {call} of seven bytes fails", status="ReadFault", after=["codes and a dual"], reads=[7], failing_reads=[call])
    for call in range(41):
        rows.row(f"codes and a dual: write {call} of sixteen bytes fails", output=output[:16 * call], status="WriteFault",
                 after=["codes and a dual"], writes=16, failing_writes=[call])


def write_cuts(rows):
    """Six words and their bound, cut at each byte. Plotkin's bound at (10,6) is 2·⌊6/2⌋."""
    words = ["1111111111", "1111000000", "1000111000", "0100100110", "0010010101", "0001001011"]
    document = f'submit hexa\nkind = "words"\nn = 10\nd = 6\nwords = {words}\n'.replace("'", '"')
    show, shown = "show 10 6\n", "A(10,6) = 6\n"
    accepted = "accepted hexa size 6\n"
    whole = document + "end\n" + show
    for length in range(len(whole) + 1):
        cut = whole[:length]
        rest = cut[len(document) + 4:]
        if len(cut) < len("submit"):
            output = "refused command\n" if cut else ""
        elif len(cut) < len(document + "end"):
            output = "refused cut\n"
        else:
            output = accepted + (shown if rest.strip() == show.strip() else "refused command\n" if rest else "")
        rows.row(f"six words, cut after {length} bytes", cut, output, "Refused" if "refused" in output else "Done")


def write_duals(rows, asked):
    """The whole table over duals and the octads, while the duals come and once they are gone."""
    table = bounds({(24, 8): 4096, (24, 8, 8): 759}, DUALS)
    rows.part("duals", "".join(submit(name, dual(*rest)) for name, *rest in DUALS), "".join(f"accepted {name}\n" for name, *_ in DUALS))
    answered = rows.file("tables-duals.out", "".join(line(table, *entry) for entry in asked))
    rows.part("tables over duals", input_file="tables.in", output_file=answered)
    rows.row("tables over duals", after=["golay", "octads", "duals", "tables over duals"])
    rows.part("duals go", "".join(f"withdraw {name}\n" for name, *_ in DUALS), "".join(f"withdrawn {name}\n" for name, *_ in DUALS))
    rows.row("duals come and go", after=["duals", "golay", "octads", "tables over duals", "duals go", "tables over the octads"])


def write_orders(rows, table):
    """The Golay code and its punctured code, which give one another's bounds, come and go in some orders, and leave the bounds as they were."""
    entries = [(n, d) for n in LENGTHS for d in (7, 8)]
    shows = "".join(f"show {n} {d}\n" for n, d in entries)
    rows.part("bounds without codes", shows, "".join(line(table, *e) for e in entries))
    rows.part("one stands", "show 24 8\nshow 23 7\n", "A(24,8) = 4096\nA(23,7) = 4096\n")
    rows.part("none stands", "show 24 8\nshow 23 7\n", line(table, 24, 8) + line(table, 23, 7))
    documents = {
        "again": cosets(24, 8, GOLAY),
        "punctured": cosets(23, 7, PUNCTURED),
        "built": build("puncture", 23, 7, "golay", "places=[23]\n"),
    }
    for name, document in documents.items():
        rows.part(name, submit(name, document), f"accepted {name} size 4096\n")
    for name in ["golay", *documents]:
        rows.part(f"{name} goes", f"withdraw {name}\n", f"withdrawn {name}\n")
    orders = [
        "golay, again, golay goes, again goes",
        "golay, again, again goes, golay goes",
        "golay, punctured, golay goes, punctured goes",
        "golay, punctured, punctured goes, golay goes",
        "punctured, golay, punctured goes, golay goes",
        "punctured, golay, golay goes, punctured goes",
        "golay, built, built goes, golay goes",
        "golay, built, punctured, built goes, golay goes, punctured goes",
    ]
    for order in orders:
        steps = [step for name in order.split(", ") for step in (name, "one stands")]
        after = ["bounds without codes", *steps[:-1], "none stands", "bounds without codes"]
        rows.row(f"codes come and go: {order}", after=after)


def write_long_lines(rows, table):
    """Lines and inputs near the limits of bytes."""
    rows.part("show", "show")
    rows.part("spaces", " ", times=1990)
    rows.row("a long command", "10 6\r", line(table, 10, 6), after=["show", "spaces"], reads=())
    rows.part("64 MiB", "#", times=2 ** 26)
    rows.row("the longest input", after=["64 MiB"])
    rows.row("one byte more than the longest input", "#", after=["64 MiB"], status="TooLong")
    document = words(3, 3, [0])
    rows.part("a document", f"submit a\n{document}")
    rows.part("4 MiB with that document", "#", times=2 ** 22 - len(document))
    after = ["a document", "4 MiB with that document"]
    rows.row("the longest document", "\nend\n", "accepted a size 1\n", after=after)
    rows.row("one byte more than the longest document", "#\nend\n", f"refused bytes {2 ** 22 + 1}\n", after=after, status="Refused")


def write_sizes(rows, table):
    """Documents and builds near the limits of words."""
    greatest = span([1 << (23 - place) | tail for place, tail in enumerate(TAILS[:14])])
    document = "submit a\nkind='words'\nn=24\nd=3\nwords=[\n" + "".join(f"'{text(x, 24)}',\n" for x in greatest)
    low, high = bounds({(24, 3): 2 ** 14})
    shown = line((low, high), 24, 3)
    assert shown == line(table, 24, 3)
    end = "]\nend\nshow 24 3\n"
    rows.part("words of the greatest size", input_file=rows.file("greatest-size.in", document))
    after = ["words of the greatest size"]
    rows.row("the greatest size", end, f"accepted a size 16384\n{shown}", after=after)
    more = f"'{'1' * 24}'{end}"
    rows.row("one word more than the greatest size", more, f"refused size 16385\n{shown}", status="Refused", after=after)
    # r(r + 1)/2 · 2^k comparisons: those of 24 basis words and one representative are at the limit.
    for basis, reply in ((24, "close 0 1 0"), (25, f"work {2 ** 25}"), (MOST, f"work {2 ** MOST}"), (MOST + 1, f"size {MOST + 1}")):
        document = submit("a", cosets(MOST, 3, ["0" * MOST] * basis))
        rows.row(f"cosets of {basis} basis words", document, f"refused {reply}\n", status="Refused")
    size = 2 ** 18
    commands = [
        (submit("all", build("complement", 28, 5, "cyclic33")), f"accepted all size {size}\n"),
        (submit("trimmed", build("trim", 28, 5, "cyclic33", f"size={size}\n")), f"accepted trimmed size {size}\n"),
        (submit("again", build("complement", 28, 5, "trimmed")), f"accepted again size {size}\n"),
    ]
    rows.row("builds of the greatest size", *map("".join, zip(*commands)), after=["cyclic33"])
    basis = [text(1 << (27 - place) | tail, 28) for place, tail in enumerate(TAILS[:19])]
    commands = [
        (submit("large", cosets(28, 3, basis)), f"accepted large size {2 * size}\n"),
        (submit("none", build("complement", 28, 3, "large")), f"refused size {2 * size}\n"),
    ]
    rows.row("a build over too large a part", *map("".join, zip(*commands)), status="Refused")


def write_pieces(rows, table):
    """As many pieces, and as many stored words, as there may be."""
    one = words(3, 3, [0])
    commands = [(submit(f"p{i}", one), f"accepted p{i} size 1\n") for i in range(1000)]
    commands += [
        ("submit p3\nend\n", "refused taken\n"),
        ("submit P\nend\n", "refused command\n"),
        ("submit z\nend\n", "refused full pieces 1000\n"),
        ("withdraw p7\n", "withdrawn p7\n"),
        ("submit p3\nend\n", "refused taken\n"),
        ("submit z\nend\n", "refused kind\n"),
        ("show 3 3\n", line(table, 3, 3)),
    ]
    write_session(rows, "thousand-pieces", "a thousand pieces", commands)
    # The Golay code stores 13 words, each code that is built from it 4096.
    built = build("lengthen", 25, 8, "golay")
    room = (10 ** 6 - 13) // 4096
    commands = [(submit(f"l{i}", built), f"accepted l{i} size 4096\n") for i in range(room)]
    commands += [(submit("more", built), f"refused full words {13 + (room + 1) * 4096}\n")]
    write_session(rows, "stored-words", "stored words", commands, after=["golay"])
    write_millionth_word(rows)


def write_session(rows, short, name, commands, after=()):
    """A row of commands and their replies, which lie in files."""
    input, output = map("".join, zip(*commands))
    files = {"input_file": rows.file(f"{short}.in", input), "output_file": rows.file(f"{short}.out", output)}
    rows.part(name, **files)
    rows.row(name, after=[*after, name], status="Refused")


def write_millionth_word(rows):
    """Documents of each kind store their words up to the last that there may be."""
    size = 2 ** 18
    few = span([1 << (9 - place) | tail for place, tail in enumerate(TAILS[:6])])
    stored = 0
    commands = []

    def take(name, document, size, words):
        nonlocal stored
        commands.append((submit(name, document), f"accepted {name} size {size}\n"))
        stored += words

    def refuse(document, reply):
        commands.append((submit("refused", document), f"refused {reply}\n"))

    stored += 18 + 1
    for number in range(3):
        take(f"build{number}", build("complement", 28, 5, "cyclic33"), size, size)
    take("golay", cosets(24, 8, GOLAY), 4096, 12 + 1)
    take("cosets", cosets(10, 3, []), 1, 1)
    take("words", words(10, 3, few[:30]), 30, 30)
    rest = 10 ** 6 - 2 - stored
    take("trim", build("trim", 28, 5, "cyclic33", f"size={rest}\n"), rest, rest)
    refuse(words(10, 3, few[:3]), "full words 1000001")
    refuse(build("trim", 24, 8, "golay", "size=3\n"), "full words 1000001")
    refuse(cosets(10, 3, [text(few[1], 10), text(few[2], 10)]), "full words 1000001")
    refuse(words(10, 3, [0, 1, 2]), "close 0 1 1")
    refuse(words(10, 3, [0, 0, 0]), "repeated 0 1")
    refuse(build("trim", 24, 8, "golay", "size=4097\n"), "few 4096 4097")
    refuse(build("complement", 10, 3, "golay"), "part golay")
    refuse(build("complement", 10, 3, "nothing"), "nosuch nothing")
    take("two", words(10, 3, few[:2]), 2, 2)
    refuse(words(10, 3, few[:1]), "full words 1000001")
    refuse(words(10, 3, few[:2]), "full words 1000002")
    commands.append(("withdraw two\n", "withdrawn two\n"))
    stored -= 2
    take("two", cosets(10, 3, [text(few[1], 10)]), 2, 2)
    refuse(build("trim", 24, 8, "golay", "size=1\n"), "full words 1000001")
    assert stored == 10 ** 6
    rows.row("the millionth stored word", *map("".join, zip(*commands)), status="Refused", after=["cyclic33"])


def write_samples(rows):
    """Samples of some numbers of commands; what standard input has is not read."""
    for number in SAMPLES:
        rows.row(f"a sample of {number}", "show 5 3\n", sample(number), words=["sample", "--number", str(number)], read_calls=0)


def main():
    rows = Rows()
    write_codes(rows)
    write_listed(rows)
    write_realistic(rows)
    table = write_tables(rows)
    write_cuts(rows)
    write_orders(rows, table)
    write_long_lines(rows, table)
    write_sizes(rows, table)
    write_pieces(rows, table)
    write_samples(rows)
    places = [word for word in sys.argv[1:] if word != "--check"]
    folder = Path(places[0]) if places else DATA
    others = []
    for name, contents in rows.made().items():
        file = folder / name
        if "--check" not in sys.argv:
            file.write_bytes(contents.encode())
        elif not file.is_file() or file.read_bytes() != contents.encode():
            others.append(name)
    if others:
        sys.exit(f"not as written: {', '.join(others)}")


main()

#!/usr/bin/env python3
"""Measures the dearest inputs that the limits allow, of each command and kind, accepted and refused, and prints them as a table for bench/RESULTS.md.

    bench/worst_cases.py PROGRAM [--plain PROGRAM] [--only NAME,NAME ..] [--runs N] [--instructions] [--list] [--write FOLDER]

Per input: its size, the least processor time of the user over the runs, peak memory, the status and the size of the output; with
--instructions those that valgrind's callgrind counts; with --plain the time of another program with these words, where it has the mode.
Each input of N bytes that has a half (`half` in its row) is measured at half its length too, and what grows more than 2.6 times is said:
a time that grows with the square would grow 4 times. Ends with 1 where one does, or where a run is ended by a signal."""

import argparse
import os
import shlex
import subprocess
import sys
import tempfile
from pathlib import Path

LIMIT, DOCUMENT = 67108864, 4194304
# The greatest length and distance of the table, and the greatest odd number of words that a dual has.
MOST, MOST_ODD = 30, 2 ** 20 - 1
LENGTHS, DISTANCES, EVEN = range(1, MOST + 1), range(3, MOST + 1), range(4, MOST + 1, 2)
TWO_ONES = [x for x in range(64) if x.bit_count() >= 2]
GOLAY = [sum(1 << (22 - s - j) for j in (0, 2, 4, 5, 6, 10, 11)) for s in range(12)]
GOLAY = [x << 1 | x.bit_count() & 1 for x in GOLAY]
HEAD = f"kind = 'words'\nn = {MOST}\nd = {MOST}\n"


# ---- documents

def text(word, n):
    return f"{word:0{n}b}"


def texts(words, n):
    return "[" + ", ".join(f"'{text(x, n)}'" for x in words) + "]"


def span(basis):
    out = [0]
    for b in basis:
        out += [x ^ b for x in out]
    return out


def linear(n, k):
    """A basis of k words of a code of distance 3."""
    return [1 << (n - 1 - place) | tail for place, tail in enumerate(TWO_ONES[:k])]


def submit(name, document):
    return f"submit {name}\n{document}end\n"


def words(n, d, list_, w=None):
    return f"kind = 'words'\nn = {n}\nd = {d}\n" + ("" if w is None else f"w = {w}\n") + f"words = {texts(list_, n)}\n"


def cosets(n, d, basis, representatives=(0,)):
    return f"kind = 'cosets'\nn = {n}\nd = {d}\nbasis = {texts(basis, n)}\nrepresentatives = {texts(representatives, n)}\n"


def build(op, n, d, part, more=""):
    return f"kind = 'build'\nop = '{op}'\nn = {n}\nd = {d}\npart = '{part}'\n{more}"


def dual(n, d, c, y=(), even=False, odd=None):
    """A dual, with an odd number of words that it may exclude where one is given."""
    kind, more = ("dual", "") if odd is None else ("odd", f"m = {odd}\n")
    return f"kind = '{kind}'\nn = {n}\nd = {d}\neven = {str(even).lower()}\n{more}c = {list(c)}\ny = {[list(p) for p in y]}\n"


def johnson_dual(n, d, w, c, y=None):
    """A dual with a weight, seen from a word where it is said what is allowed."""
    kind, more = ("jdual", "") if y is None else ("jlocal", f"y = {[list(p) for p in y]}\n")
    return f"kind = '{kind}'\nn = {n}\nd = {d}\nw = {w}\nc = {list(c)}\n{more}"


def partition(n, d, between, classes, w=None):
    return f"kind = 'partition'\nn = {n}\nd = {d}\n" + ("" if w is None else f"w = {w}\n") + f"d1 = {between}\nclasses = [{', '.join(texts(c, n) for c in classes)}]\n"


def filled(size, unit, head="", tail=""):
    """A text of at most so many bytes: a head, a unit as often as it fits, by its number, and a tail."""
    out, room, number = [head], size - len(head) - len(tail), 0
    if not callable(unit):
        return head + unit * (room // len(unit)) + tail
    while True:
        more = unit(number)
        if len(more) > room:
            return "".join(out) + tail
        out.append(more)
        room -= len(more)
        number += 1


def as_document(make):
    """An input of one document of 4 MiB, or of so much less."""
    return lambda part: submit("a", make((DOCUMENT - 64) // part) + "\n")


# ---- inputs: each takes 1, or 2 for one of half the length

def all_keys(size):
    return filled(size, lambda i: f"k{i}=1\n", HEAD)


def all_heads(size):
    return filled(size, lambda i: f"[h{i}]\n", HEAD)


def all_tables_in_lists(size):
    return filled(size, "[[a]]\n", HEAD)


def dotted_keys(size):
    return filled(size, lambda i: f"a.b{i}=1\n", HEAD)


def nesting(size):
    depth = (size - 100) // 2
    return HEAD + "words = " + "[" * depth + "]" * depth


def nested_to_the_limit(size):
    return filled(size, "[" * 78 + "]" * 78 + ",", HEAD + "words = [", "1]")


PARTS = ".a" * 78


def long_keys(size):
    """Keys of 79 parts, each a table in a table."""
    return filled(size, lambda i: f"k{i}{PARTS}=1\n", HEAD)


def long_heads(size):
    return filled(size, lambda i: f"[h{i}{PARTS}]\n", HEAD)


def long_keys_in_lists(size):
    return filled(size, f"{{a{PARTS}=1}},", HEAD + "words = [", "1]")


def long_keys_of_tables_in_lists(size):
    return filled(size, f"[[a]]\nb{PARTS}=1\n", HEAD)


def dots(size):
    return HEAD + "a" + ".a" * ((size - 100) // 2) + "=1"


def long_text(size):
    return filled(size, "a", HEAD + "words = '", "'")


def escapes(size):
    return filled(size, "\\u0041", HEAD + 'words = "', '"')


def long_list(size):
    return filled(size, "1,", HEAD + "words = [", "1]")


def list_of_texts(size):
    return filled(size, f"'{'0' * MOST}', ", HEAD + "words = [", f"'{'1' * MOST}']")


def floats(size):
    return filled(size, "1.2345678901234567e-300,", HEAD + "words = [", "1]")


def inline_tables(size):
    return filled(size, lambda i: f"a{i}={{b=1}}\n", HEAD)


def empty_lines(size):
    return filled(size, "\n", HEAD)


def pairs(k, last=False):
    """2^k words, of which no two, or the last two alone, are too close."""
    def make(part):
        list_ = sorted(span(linear(24, k - part + 1)))
        if last:
            list_[-1] = list_[-2] ^ 1 << 9
        return submit("a", words(24, 3, list_))
    return make


def equal_last(part):
    list_ = sorted(span(linear(24, 15 - part)))
    return submit("a", words(24, 3, [*list_[:-1], list_[-2]]))


def one_weight(part):
    """As many words of one weight as may be."""
    list_ = [x for x in span(linear(24, 18)) if x.bit_count() == 12][:16384 // part]
    return submit("a", words(24, 4, list_, 12))


def cosets_at_the_limit(part):
    basis = linear(28, 23)
    return submit("a", cosets(28, 3, basis[:10], span(basis[10:18])[:180 // part]))


def long_basis(part):
    return submit("a", cosets(28, 3, linear(28, 23 - part + 1)))


def come_and_go(document):
    """64 MiB in which one piece comes and goes."""
    return lambda part: filled(LIMIT // part, submit("a", document) + "withdraw a\n")


def close_last(part):
    """A basis whose sum alone is too close to nothing."""
    basis = linear(28, 23 - part + 1)
    last = 1
    for b in basis:
        last ^= b
    return submit("a", cosets(28, 3, [*basis, last]))


def partition_at_the_limit(part):
    """16,384 words in 4,096 classes of four."""
    list_ = sorted(span(linear(24, 15 - part)))
    return submit("a", partition(24, 3, 3, [list_[i:i + 4] for i in range(0, len(list_), 4)]))


def partition_of_one_class():
    return partition(24, 3, 3, [sorted(span(linear(24, 14)))])


def product_of_pairs(count):
    """A product of so many pairs, of weights that are 2 apart as far as the length allows: then some are alike, and the product is refused."""
    def make(_):
        half, out, names = MOST // 2, [], []
        for i in range(count):
            weight = 2 * (i % (half // 2 + 1))
            first, second = (1 << weight) - 1, (1 << half - weight) - 1
            for side, word in (("x", first), ("y", second)):
                out.append(submit(f"{side}{i}", partition(half, 4, 4, [[word]], word.bit_count())))
            names.append([f"x{i}", f"y{i}"])
        product = f"kind = 'product'\nn = {MOST}\nd = 4\nw = {half}\npairs = {names}\n"
        return "".join(out) + submit("product", product)
    return make


def large_product():
    """A product of one pair of partitions of the words of even weight of length 9 in 16 classes."""
    classes = {}
    for x in range(2 ** 9):
        if x.bit_count() % 2 == 0:
            syndrome = 0
            for j in range(9):
                syndrome ^= (j + 1 if j < 8 else 0) * (x >> j & 1)
            classes.setdefault(syndrome, []).append(x)
    one = partition(9, 4, 2, classes.values())
    return submit("x", one) + submit("product", "kind = 'product'\nn = 18\nd = 4\npairs = [['x', 'x']]\n")


def shortened_products(part):
    """A product that is shortened, so that its words are made, again and again."""
    shorter = build("shorten", 17, 4, "product", "places = [0]\ndigits = '0'\n")
    return large_product() + (submit("s", shorter) + "withdraw s\n") * (200 // part)


def part_of_builds(k=18):
    return submit("c0", cosets(26, 3, linear(26, k)))


def by(number, n):
    return f"by = '{text(number * 32452843 % 2 ** n, n)}'\n"


def builds_come_and_go(document):
    """A build over 262,144 words that comes and goes 40 times."""
    return lambda part: part_of_builds() + (submit("x", document) + "withdraw x\n") * (40 // part)


def chain_of_great_builds(part):
    """Builds of 262,144 words, each over the one before, until the stored words are full, and then as many that are refused."""
    count = 40 // part
    return part_of_builds() + "".join(submit(f"c{i + 1}", build("translate", 26, 3, f"c{min(i, 3)}", by(i + 1, 26))) for i in range(count))


def refused_builds(part):
    """Builds whose result is empty: the code of the part is made each time."""
    zero = "0" * 26
    return part_of_builds() + "".join(submit("x", build("select", 26, 4, "c0", f"w = 26\nby = '{zero}'\n")) for _ in range(20 // part))


def greatest_duals(odd=None):
    great = 2 ** 63 - 1
    document = dual(MOST, 3, [great] * (MOST + 1), [(j, great) for j in DISTANCES], odd=odd)
    return lambda part: "".join(submit(f"d{i}", document) for i in range(1000 // part))


def greatest_johnson_duals(part):
    great = 2 ** 63 - 1
    return "".join(submit(f"d{i}", johnson_dual(MOST, 4, MOST // 2, [1, *[0] * (MOST // 2 - 1), great])) for i in range(1000 // part))


def resting_duals(odd=None):
    """Duals that rest on bounds of constant weight, and one of the Johnson scheme that comes and goes and betters one of these bounds."""
    duals = "".join(submit(f"d{i}", dual(MOST, 12, [1], [(j, 1) for j in range(12, MOST + 1)], odd=odd)) for i in range(900))
    better = johnson_dual(MOST, 12, 10, [1285440, 85956, 3960, 145])
    return lambda part: duals + (submit("last", better) + "withdraw last\n") * (100 // part)


def resting_local_duals(part):
    """Duals of one length and distance that rest on all its bounds of even weight, and one of the Johnson scheme that comes and goes as above."""
    entries = [(w, [(i, 1) for i in range(6, min(w, MOST - w) + 1)]) for w in range(6, MOST - 5)]
    duals = "".join(submit(f"d{k}", johnson_dual(MOST, 12, entries[k % len(entries)][0], [1], entries[k % len(entries)][1])) for k in range(900))
    better = johnson_dual(MOST, 12, 10, [1285440, 85956, 3960, 145])
    return duals + (submit("last", better) + "withdraw last\n") * (100 // part)


def thousand_pieces(part):
    return "".join(submit(f"p{i}", words(10, 4, [i])) for i in range(1000 // part))


def long_ids(part):
    """A thousand ids of 32 bytes that share the first 30, 38 of them 31 as so many may, and looks for one that shares 31 with these."""
    letters = "abcdefghijklmnopqrstuvwxyz0123456789-_"
    ids = [f"{'a' * 30}{x}{y}" for x in letters for y in letters][:1000]
    out = "".join(submit(name, words(10, 4, [i])) for i, name in enumerate(ids))
    return out + f"withdraw {'a' * 31}\n" * (100000 // part)


def named_parts(part):
    """Five hundred builds over the last of as many pieces; the first can't go."""
    out = "".join(submit(f"p{i}", words(10, 4, [i])) for i in range(500))
    out += "".join(submit(f"b{i}", build("complement", 10, 4, "p499")) for i in range(499))
    return out + "withdraw p499\n" * (20000 // part)


def withdrawals(part):
    return thousand_pieces(part) + "".join(f"withdraw p{i}\n" for i in range(1000 // part))


def great_code_comes_and_goes(part):
    return (submit("golay", cosets(24, 8, GOLAY)) + "withdraw golay\n") * (200 // part)


def refused_taken(part):
    one = submit("p", words(10, 4, [0]))
    return filled(LIMIT // part, one)


def refused_long_documents(make):
    """As many documents of 4 MiB as fit."""
    return lambda part: submit("a", make(DOCUMENT - 64)) * (16 // part)


def great_dumps(part):
    """Dumps of sixteen documents of 3.5 MiB."""
    pad = "#" * int(3.5 * 2 ** 20) + "\n"
    return "".join(submit(f"q{i}", words(10, 4, [i]) + pad) for i in range(16)) + "dump\n" * (4 // part)


def long_line_of_a_document(part):
    return "submit a\n" + "x" * (LIMIT // part - 9)


def dumps(part):
    return "".join(submit(f"q{i}", words(20, 3, sorted(span(linear(20, 13))))) for i in range(120)) + "dump\n" * (16 // part)


def ledgers(part):
    return thousand_pieces(1) + "ledger\n" * (1000 // part)


def repeated(line):
    return lambda part: filled(LIMIT // part, line)


def lists(entry, count):
    return lambda part: f"list {entry}\n" * (count // part)


def explain_all(part):
    entries = [(n, d) for n in LENGTHS for d in DISTANCES] + [(n, d, w) for n in LENGTHS for d in EVEN for w in range(n + 1)]
    return submit("golay", cosets(24, 8, GOLAY)) + "".join(f"explain {side} {' '.join(map(str, e))}\n" for e in entries[::part] for side in ("lower", "upper"))


def explain_over_many(part):
    """Each bound of a distance explained over a thousand pieces."""
    return thousand_pieces(1) + "".join(f"explain {side} {n} 4\n" for n in LENGTHS for side in ("lower", "upper")) * (20 // part)


# The first 29 bytes of ids that are alike as long as a thousand can be.
ALIKE = "a" * 29


def eight_pairs():
    """Sixteen partitions, and a product of eight pairs of them, which is accepted."""
    out, names = [], []
    for i in range(8):
        for side, weight in (("x", 2 * i), ("y", 14 - 2 * i)):
            out.append(submit(f"{ALIKE}{side}0{i}", partition(14, 4, 4, [[(1 << weight) - 1]], weight)))
        names.append([f"{ALIKE}x0{i}", f"{ALIKE}y0{i}"])
    return "".join(out), f"kind = 'product'\nn = 28\nd = 4\nw = 14\npairs = {names}\n"


def explain_over_products(part):
    """Bounds explained over 984 products, each of which names sixteen ids, all ids alike in 29 bytes."""
    partitions, product = eight_pairs()
    return partitions + "".join(submit(f"{ALIKE}{i:03}", product) for i in range(984)) + "explain lower 1 3\n" * (20 // part)


def explain_great_documents(part):
    """The octads as a build over the last of a chain of builds over the Golay code, each with a document of 3.5 MiB, and why there are so many."""
    pad = "#" * (int(3.5 * 2 ** 20) // part) + "\n"
    zero = f"by = '{text(0, 24)}'\n"
    chain = "".join(submit(f"t{i}", build("translate", 24, 8, f"t{i - 1}", zero) + pad) for i in range(1, 16))
    return submit("t0", cosets(24, 8, GOLAY) + pad) + chain + submit("octads", build("select", 24, 8, "t15", f"w = 8\n{zero}")) + "explain lower 24 8 8\n" * 4


def derivation_of_lines(part):
    """A derivation of 64 MiB, of lines that rest on the one before."""
    pair = "line {} upper 30 3 value 1073741824 by U0\n"
    return filled(LIMIT // part, lambda i: pair.format(i + 1), "derivation\n", "done\n")


def derivation_of_premises(part):
    """Lines that each rest on the one before: zeros and ones exchanged at half weight is the same entry."""
    first = "line 1 lower 30 4 15 value 1 by M1\n"
    return filled(LIMIT // part, lambda i: f"line {i + 1} lower 30 4 15 value 1 by M7 from {i}\n" if i else first, "derivation\n", "done\n")


def sum_class(n, w, r):
    """How many subsets of w places of n have a sum of r modulo n."""
    counts = [[0] * n for _ in range(w + 1)]
    counts[0][0] = 1
    for place in range(n):
        for size in range(w, 0, -1):
            for s in range(n):
                counts[size][(s + place) % n] += counts[size - 1][s]
    return counts[w][r]


def derivation_of_sum_classes(part):
    """4 MiB of lines of the rule that counts most."""
    line = f"line {{}} lower 30 4 15 value {sum_class(30, 15, 0)} by M9 0\n"
    return filled(LIMIT // 16 // part, lambda i: line.format(i + 1), "derivation\n", "done\n")


def full_columns(n, d, w):
    """The least number of words, up to 1,000, that is too many (V8)."""
    for m in range(2, 1001):
        q, r = divmod(w * m, n)
        if n * q * (q - 1) + 2 * q * r > (w - d // 2) * m * (m - 1):
            return m
    return 0


def derivation_of_columns(part):
    """Lines of the rule that tries most numbers of words."""
    m, n, d, w = max((full_columns(n, d, w), n, d, w) for n in LENGTHS for d in EVEN for w in range(d // 2, n + 1))
    return filled(LIMIT // part, lambda i: f"line {i + 1} upper {n} {d} {w} value {m - 1} by V8\n", "derivation\n", "done\n")


def derivation_of_long_line(part):
    return filled(LIMIT // part, " 1", "derivation\nline 1 lower 4 4 value 2 by L3 from", "\ndone\n")


def derivation_of_long_keys(part):
    return f"derivation\nevidence a\n{long_keys((DOCUMENT - 64) // part)}end\ndone\n"


def derivation_of_trims(part):
    """Trims of a coset code of 262,144 words, whose words are listed for each."""
    code = f"evidence c\n{cosets(26, 3, linear(26, 18))}end\n"
    trims = "".join(f"evidence t{i}\n{build('trim', 26, 3, 'c', 'size = 1' + chr(10))}end\n" for i in range(999 // part))
    return f"derivation\n{code}{trims}line 1 lower 3 4 value 1 by L1\ndone\n"


def derivation_of_evidence(part):
    document = "".join(f"'{text(x, 24)}'," for x in sorted(span(linear(24, 13))))
    return filled(LIMIT // part, lambda i: f"evidence e{i}\nkind='words'\nn=24\nd=3\nwords=[{document}]\nend\n", "derivation\n", "line 1 lower 3 4 value 1 by L1\ndone\n")


def all_finds(_):
    return "".join(f"{n} {d}\n" for n in LENGTHS for d in DISTANCES)


def finds_of(entry, count):
    return lambda part: f"{entry}\n" * (count // part)


# name: the mode, what makes it, whether half of it is measured, what it is about
CASES = {
    "nothing": ("session", lambda _: "", False, "an empty session"),
    "line_feeds": ("session", repeated("\n"), True, "64 MiB of line feeds"),
    "one_line": ("session", lambda part: "x" * (LIMIT // part), True, "one line of 64 MiB"),
    "words_of_a_line": ("session", lambda part: "a " * (LIMIT // part // 2), True, "one line of 32 Mi words"),
    "refused_commands": ("session", repeated("a\n"), True, "64 MiB of lines that are no command"),
    "shows": ("session", repeated("show 10 6\n"), True, "64 MiB of `show`"),
    "tables": ("session", lambda part: "table 6\n" * (20000 // part), True, "`table` 20,000 times"),
    "all_keys": ("session", as_document(all_keys), True, "4 MiB of keys"),
    "all_heads": ("session", as_document(all_heads), True, "4 MiB of headers of tables"),
    "all_tables_in_lists": ("session", as_document(all_tables_in_lists), True, "4 MiB of headers of tables in a list"),
    "dotted_keys": ("session", as_document(dotted_keys), True, "4 MiB of dotted keys of one table"),
    "long_keys": ("session", as_document(long_keys), True, "4 MiB of keys of 79 parts"),
    "long_heads": ("session", as_document(long_heads), True, "4 MiB of headers of 79 parts"),
    "long_keys_in_lists": ("session", as_document(long_keys_in_lists), True, "4 MiB of inline tables with keys of 79 parts"),
    "long_keys_of_tables_in_lists": ("session", as_document(long_keys_of_tables_in_lists), True, "4 MiB of tables in a list with keys of 79 parts"),
    "dots": ("session", as_document(dots), True, "4 MiB of parts of one key"),
    "nesting": ("session", as_document(nesting), True, "4 MiB of nested lists"),
    "nested_to_the_limit": ("session", as_document(nested_to_the_limit), True, "4 MiB of lists of 79 levels"),
    "inline_tables": ("session", as_document(inline_tables), True, "4 MiB of inline tables"),
    "long_text": ("session", as_document(long_text), True, "one text of 4 MiB"),
    "escapes": ("session", as_document(escapes), True, "4 MiB of escapes"),
    "long_list": ("session", as_document(long_list), True, "one list of 2 Mi numbers"),
    "floats": ("session", as_document(floats), True, "4 MiB of floats"),
    "list_of_texts": ("session", as_document(list_of_texts), True, "123,000 words, refused for their number"),
    "empty_lines": ("session", as_document(empty_lines), True, "a document of 4 Mi empty lines"),
    "refused_long_documents": ("session", refused_long_documents(all_keys), True, "16 refused documents of 4 MiB of keys"),
    "refused_long_keys": ("session", refused_long_documents(long_keys), True, "16 refused documents of 4 MiB of keys of 79 parts"),
    "long_line_of_a_document": ("session", long_line_of_a_document, True, "one line of 64 MiB in a document"),
    "words": ("session", pairs(14), False, "16,384 words, accepted"),
    "words_close": ("session", pairs(14, True), False, "16,384 words, the last two too close"),
    "words_equal": ("session", equal_last, False, "16,384 words, the last two equal"),
    "words_of_one_weight": ("session", one_weight, False, "16,384 words of weight 12"),
    "cosets": ("session", cosets_at_the_limit, False, "180 cosets of 1,024 words"),
    "long_basis": ("session", long_basis, False, "23 basis words"),
    "cosets_close": ("session", close_last, False, "24 basis words, their sum alone too close"),
    "partition": ("session", partition_at_the_limit, False, "16,384 words in 4,096 classes"),
    "long_bases": ("session", come_and_go(cosets(28, 3, linear(28, 23))), True, "64 MiB of 23 basis words that come and go"),
    "partitions_of_one_class": ("session", come_and_go(partition_of_one_class()), True, "64 MiB of a partition of one class of 16,384 words that comes and goes"),
    "product": ("session", lambda _: large_product(), False, "a product of one pair of 256 words in classes"),
    "product_of_31_pairs": ("session", product_of_pairs(31), False, "a product of 31 pairs, refused"),
    "product_of_8_pairs": ("session", product_of_pairs(8), False, "a product of 8 pairs"),
    "translations": ("session", builds_come_and_go(build("translate", 26, 3, "c0", by(1, 26))), True, "a translation of 262,144 words comes and goes 40 times"),
    "shortened": ("session", builds_come_and_go(build("shorten", 25, 3, "c0", "places = [0]\ndigits = '0'\n")), True, "262,144 words shortened come and go 40 times"),
    "shortened_products": ("session", shortened_products, True, "a product of 4,096 words shortened comes and goes 200 times"),
    "great_builds": ("session", chain_of_great_builds, True, "40 builds of 262,144 words, three stored"),
    "refused_builds": ("session", refused_builds, True, "20 builds over 262,144 words, with no word"),
    "duals": ("session", greatest_duals(), True, "1,000 duals of the greatest multipliers"),
    "odd_duals": ("session", greatest_duals(MOST_ODD), True, "1,000 duals of the greatest multipliers and number of words"),
    "jduals": ("session", greatest_johnson_duals, True, "1,000 duals of the Johnson scheme, refused"),
    "resting_duals": ("session", resting_duals(), True, "900 duals, one with a weight comes and goes 100 times"),
    "resting_odd_duals": ("session", resting_duals(MOST_ODD), True, "900 duals with a number of words, one with a weight comes and goes 100 times"),
    "resting_local_duals": ("session", resting_local_duals, True, "900 duals that are seen from a word, one with a weight comes and goes 100 times"),
    "pieces": ("session", thousand_pieces, True, "1,000 pieces"),
    "long_ids": ("session", long_ids, True, "1,000 ids that share 30 and 31 bytes, one looked for 100,000 times"),
    "named_parts": ("session", named_parts, True, "499 builds over a piece that is withdrawn in vain 20,000 times"),
    "withdrawals": ("session", withdrawals, True, "1,000 pieces come, and go"),
    "comes_and_goes": ("session", great_code_comes_and_goes, True, "Golay's code comes and goes 200 times"),
    "refused_taken": ("session", refused_taken, True, "64 MiB of submissions under one id"),
    "dumps": ("session", dumps, True, "16 dumps of 983,040 stored words"),
    "ledgers": ("session", ledgers, True, "`ledger` 1,000 times over 1,000 pieces"),
    "lists": ("session", lists("30 3", 20), True, "`list 30 3` 20 times"),
    "lists_with_weight": ("session", lists("30 4 15", 20), True, "`list 30 4 15` 20 times"),
    "great_dumps": ("session", great_dumps, True, "4 dumps of documents of 56 MiB"),
    "explain_all": ("session", explain_all, True, "all 15,540 explanations over Golay's code"),
    "explain_over_many": ("session", explain_over_many, True, "1,200 explanations over 1,000 pieces"),
    "explain_over_products": ("session", explain_over_products, True, "20 explanations over 984 products of 8 pairs"),
    "explain_great_documents": ("session", explain_great_documents, True, "4 explanations with documents of 56 MiB"),
    "derivation_of_lines": ("verify", derivation_of_lines, True, "64 MiB of lines without premises"),
    "derivation_of_premises": ("verify", derivation_of_premises, True, "64 MiB of lines that rest on the one before"),
    "derivation_of_sum_classes": ("verify", derivation_of_sum_classes, True, "4 MiB of lines that each count a sum class"),
    "derivation_of_columns": ("verify", derivation_of_columns, True, "64 MiB of lines that each try most numbers of words"),
    "derivation_of_long_line": ("verify", derivation_of_long_line, True, "one line of 64 MiB"),
    "derivation_of_long_keys": ("verify", derivation_of_long_keys, True, "evidence of 4 MiB of keys of 79 parts"),
    "derivation_of_trims": ("verify", derivation_of_trims, True, "999 trims of 262,144 words"),
    "derivation_of_evidence": ("verify", derivation_of_evidence, True, "64 MiB of evidence of 8,192 words each"),
    "finds": ("find", all_finds, False, "a dual for each entry without weight"),
    "finds_of_length_30": ("find", finds_of("30 3", 1000), True, "a dual of A(30,3) 1,000 times"),
    "finds_of_one_word": ("find", finds_of("1 3", 1000000), True, "a dual of A(1,3) a million times"),
    "finds_with_weight": ("find", finds_of("30 4 15", 1000), True, "a dual of A(30,4,15) 1,000 times"),
    "finds_of_none": ("find", repeated("a\n"), True, "64 MiB of lines that are no entry"),
    "sample": ("sample --number 2000", lambda _: "", False, "the greatest sample"),
}


# What is too long to be kept goes to /dev/null, and is not counted.
TO_NOWHERE = {"lists", "lists_with_weight"}


# ---- runs

# A small program between, so that the memory of this one is not counted as the child's.
RUNNER = """
import os, resource, sys
child = os.fork()
if child == 0:
    os.dup2(os.open(sys.argv[1], os.O_RDONLY), 0)
    os.dup2(os.open(sys.argv[2], os.O_WRONLY | os.O_CREAT | os.O_TRUNC), 1)
    os.execvp(sys.argv[3], sys.argv[3:])
_, status, used = os.wait4(child, 0)
print(os.waitstatus_to_exitcode(status), used.ru_utime, used.ru_maxrss)
"""


def once(command, source, sink):
    """The status, seconds of the user, and kB at the peak, of a run."""
    told = subprocess.run([sys.executable, "-c", RUNNER, source, sink, *command], capture_output=True, text=True, check=True).stdout.split()
    return int(told[0]), float(told[1]), int(told[2])


def least(command, source, sink, runs):
    """The run of least time; a long one is not run again."""
    done = [once(command, source, sink)]
    while len(done) < runs and done[0][1] < 10:
        done.append(once(command, source, sink))
    return min(done, key=lambda run: run[1])


def instructions(command, source, folder):
    """The instructions of a run, as callgrind counts them."""
    note = folder / "callgrind"
    with open(source, "rb") as input:
        said = subprocess.run(["valgrind", "--tool=callgrind", f"--callgrind-out-file={note}", *command], stdin=input, stdout=subprocess.DEVNULL, stderr=subprocess.PIPE, text=True).stderr
    return next((int(line.split(":")[1]) for line in said.split("\n") if "Collected" in line), 0)


def measure(name, options, folder):
    """The row of an input, and what is wrong with it."""
    mode, make, has_half, about = CASES[name]
    command = [*shlex.split(options.program), *mode.split()]
    source, sink, wrong = folder / "input", Path("/dev/null") if name in TO_NOWHERE else folder / "output", []
    source.write_text(make(1))
    status, seconds, memory = least(command, source, sink, options.runs)
    wrote, size = "-" if name in TO_NOWHERE else f"{sink.stat().st_size:,}", source.stat().st_size
    cells = [about, f"{size:,}", str(status), wrote, f"{seconds:.2f} s", f"{memory / 1024:.1f} MB"]
    if status < 0:
        wrong.append(f"{name}: ended by signal {-status}")
    if options.instructions:
        cells.append(f"{instructions(command, source, folder) / 1e6:,.0f} M")
    if options.plain:
        plain = least([*shlex.split(options.plain), *mode.split()], source, sink, options.runs)
        cells.append("-" if plain[0] == 2 else f"{plain[1]:.2f} s, {plain[2] / 1024:.1f} MB")
    growth = "-"
    if has_half:
        source.write_text(make(2))
        half = least(command, source, sink, options.runs)[1]
        growth = f"{seconds / max(half, 0.001):.1f}"
        if seconds > 0.1 and seconds > 2.6 * half:
            wrong.append(f"{name}: {half:.2f} s for half of it, {seconds:.2f} s for the whole")
    return [*cells, growth], wrong


def main():
    parser = argparse.ArgumentParser(description=__doc__, formatter_class=argparse.RawDescriptionHelpFormatter)
    parser.add_argument("program", nargs="?", help="a built code_tables")
    parser.add_argument("--plain", help="another program, with its words")
    parser.add_argument("--only", help="names of inputs, with commas")
    parser.add_argument("--runs", type=int, default=3)
    parser.add_argument("--instructions", action="store_true")
    parser.add_argument("--list", action="store_true", help="print the names")
    parser.add_argument("--write", help="a folder for the inputs, and run nothing")
    options = parser.parse_args()
    names = options.only.split(",") if options.only else list(CASES)
    if options.list:
        print("\n".join(f"{name}: {CASES[name][3]}" for name in names))
        return
    if options.write:
        for name in names:
            (Path(options.write) / name).write_text(CASES[name][1](1))
        return
    if not options.program:
        parser.error("no program")
    head = ["input", "bytes", "status", "bytes out", "time", "memory"] + ["instructions"] * options.instructions + ["plain program"] * bool(options.plain) + ["of half"]
    print("| " + " | ".join(head) + " |\n" + "|---" * len(head) + "|", flush=True)
    wrong = []
    with tempfile.TemporaryDirectory() as folder:
        for name in names:
            cells, faults = measure(name, options, Path(folder))
            print("| " + " | ".join(cells) + " |", flush=True)
            wrong += faults
    print("".join(f"\n{fault}" for fault in wrong), file=sys.stderr)
    print(f"Load over fifteen minutes: {os.getloadavg()[2]:.1f}", file=sys.stderr)
    sys.exit(bool(wrong))


if __name__ == "__main__":
    main()

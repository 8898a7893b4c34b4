"""Derivations are checked as the program's `verify` checks them."""

import random
import re
import time
import tomllib
import unittest

from support import TOP, needs_program, run, session

import check_derivation
import mutations

DUAL = """derivation
evidence d13
kind = "dual"
n = 13
d = 6
even = true
c = [5, 1, 1]
y = [[10, 16], [12, 48]]
end
line 1 upper 13 6 3 value 4 by V2
line 2 upper 13 6 10 value 4 by V3 from 1
line 3 upper 13 6 12 value 1 by V1
line 4 upper 13 6 value 32 by U11 d13 from 2 3
done
"""
# Sizes that parity excludes, by hand. Of (9,4): f(0) = 3 + 9 + 36 = 48, f(8) = 3 - 7 + 20 = 16, and E = 48 + 16·A(9,4,8) = 64; with L = 3m² + 45,
# m = 21 has 1368 > 21·64 = 1344, and m = 19 has 1128 < 19·64 = 1216. Of (5,3): f = 1, E = 1 + 1·2 + max(2·1, 1·1) = 5, and L = m².
ODD = """derivation
evidence o9
kind = "odd"
n = 9
d = 4
even = true
m = 21
c = [3, 1, 1]
y = [[8, 16]]
end
line 1 upper 9 4 8 value 1 by V1
line 2 upper 9 4 value 20 by U12 o9 from 1
done
"""
ODD_ODD = """derivation
evidence o5 lines 6
kind = "odd"
n = 5
d = 3
m = 7
c = [1]
y = [[3, 1], [4, 2], [5, 1]]
line 1 upper 5 4 2 value 2 by V2
line 2 upper 5 4 3 value 2 by V3 from 1
line 3 upper 5 4 4 value 1 by V1
line 4 upper 5 4 5 value 1 by V1
line 5 upper 5 3 value 6 by U12 o5 from 2 3 4
done
"""
# Of (5,5): f(0) = 7, f(5) = -3, and L = 2·9 + 5 = 23 is above 3·7 by no more than c_0.
ODD_LEAST = """derivation
evidence o5
kind = "odd"
n = 5
d = 5
m = 3
c = [2, 1]
end
line 1 upper 5 5 value 2 by U12 o5
done
"""
# Of (8,4,4): f(0) = 24, f(2) = 8, f(3) = 0 and f(4) = -8. A doubly constant code of (4,2,4,2,4) has at most 12 words: at (3,1,4,2) 7 are too many,
# since 147 - 17 - 50 = 80 < 84, and 4/2 of 6 is 12. So (24 + 8·12)/8 = 15, where A(8,4,4) <= 14 alone would give 17. Of (13,6,5): f(0) = 17160,
# f(3) = 1716 and f(4) = f(5) = 0; of (5,3,8,3,6) there are at most 16, and (17160 + 1716·16)/2200 = 20.2.
LOCAL = """derivation
evidence j8
kind = "jlocal"
n = 8
d = 4
w = 4
c = [8, 1]
y = [[2, 8]]
end
line 1 upper 6 4 2 value 3 by V2
line 2 upper 7 4 3 value 7 by V4 from 1
line 3 upper 8 4 4 value 14 by V4 from 2
line 4 upper 8 4 4 value 15 by V10 j8 from 3
done
"""
LOCAL_13 = """derivation
evidence j13 lines 6
kind = "jlocal"
n = 13
d = 6
w = 5
c = [2200, 192, 13]
y = [[3, 1716]]
line 1 upper 13 6 6 value 1716 by V0
line 2 upper 13 6 5 value 20 by V10 j13 from 1
done
"""
PAIR = "evidence pair lines 4\nkind = 'words'\nn = 3\nd = 3\nwords = ['000', '111']\n"

CITED = PAIR.replace("lines 4\n", "lines 6\nformat = 2\ncites = ['Golay 1949']\n")
CITED_LINE = "line 1 lower 3 3 value 2 by L10 pair"
# What stands in the place of the cites of CITED, and whether the document is refused then.
CITES = [("[]", ""), ("['a', 'a']", ""), ("['~ !']", ""), (str(["x" * 200] * 16), ""), ("[\"\\u0041\\\\\"]", ""), ("['']", "field cites"),
         (str(["x" * 201]), "field cites"), (str(["a"] * 17), "field cites"), ("['\u00e9']", "field cites"), ("[\"\\t\"]", "field cites"),
         ("[\"\\u007f\"]", "field cites"), ("[1]", "field cites"), ("[['a']]", "field cites"), ("'a'", "field cites"), ("{}", "field cites")]
# What stands in the place of its format, and whether the document is refused then.
FORMATS = [("0x2", ""), ("1", "unknown"), ("0", "field format"), ("3", "field format"), ("true", "field format"), ("2.0", "field format"), ("'2'", "field format")]

# Lines of a document between `derivation` and `done`, and the verdict.
VERDICTS = [
    ("line 1 upper 11 6 4 value 6 by V8", "yes"),
    ("line 1 upper 11 6 4 value 6 by V8\r", "yes"),
    ("line  1 upper 11 6 4  value 6 by V8 ", "yes"),
    ("line 1 upper 11 6 4 value 7 by V8", "no 2 value 7 6"),
    ("line 2 upper 11 6 4 value 6 by V8", "no 2 form"),
    ("line 1 lower 11 6 4 value 6 by V8", "no 2 form"),
    ("line 1 upper 11 5 4 value 6 by V8", "no 2 form"),
    ("line 1 upper 11 6 value 6 by V8", "no 2 rule"),
    ("line 1 upper 31 6 value 6 by U0", "no 2 form"),
    ("line 1 upper 30 3 value 1073741824 by U0", "yes"),
    ("line 1 upper 30 3 value 1073741825 by U0", "no 2 form"),
    ("line 1 upper 30 3 value 0 by U0", "no 2 form"),
    ("line 1 upper 30 3 value 01 by U0", "no 2 form"),
    ("line 1 upper 30 3 value 1 by U99", "no 2 form"),
    ("line 1 upper 30 3 value 1073741824 by U0 0", "no 2 form"),
    ("line 1 upper 30 3 value 1073741824 by U0 from", "no 2 form"),
    ("line 1 upper 30 3 value 1073741824 by U0 from 1", "no 2 premise"),
    ("line 1 upper 30 4 value 1 by U10", "no 2 form"),
    ("line 1 upper 30 4 value 1 by U10 31", "no 2 rule"),
    ("line 1 upper 30 4 value 1 by U10 99999999999999999999", "no 2 form"),
    ("line 1 upper 30 4 value 1 by U10 0 from 1", "no 2 premise"),
    ("line 1 lower 8 4 value 1 by L1\nline 2 lower 9 4 value 1 by L3 from 1", "yes"),
    ("line 1 lower 8 4 value 1 by L1\nline 2 lower 9 4 value 1 by L3 from 2", "no 3 premise"),
    ("line 1 lower 8 4 value 1 by L1\nline 2 lower 9 4 value 1 by L3 from 0", "no 3 premise"),
    ("line 1 lower 8 4 value 1 by L1\nline 2 lower 10 4 value 1 by L3 from 1", "no 3 premise"),
    ("line 1 lower 1 4 value 1 by L3 from 1", "no 2 rule"),
    ("line 1 lower 6 4 3 value 4 by M9 0", "yes"),
    ("line 1 lower 6 4 3 value 3 by M9 1", "yes"),
    ("line 1 lower 6 6 3 value 4 by M9 0", "no 2 rule"),
    ("line 1 upper 15 6 5 value 45 by V4 from 1", "no 2 premise"),
    (PAIR + "line 1 lower 3 3 value 2 by L10 pair", "yes"),
    (PAIR + "line 1 lower 3 3 value 2 by L10 pairs", "no 7 rule"),
    (PAIR + "line 1 lower 3 3 value 2 by L10 Pair", "no 7 form"),
    (PAIR + "line 1 lower 4 3 value 2 by L10 pair", "no 7 rule"),
    (PAIR + "line 1 upper 3 3 value 2 by U11 pair", "no 7 rule"),
    (PAIR + PAIR + "line 1 lower 3 3 value 2 by L10 pair", "no 7 evidence taken"),
    (PAIR.replace("'111'", "'011'") + "line 1 lower 3 3 value 2 by L10 pair", "no 2 evidence close 0 1 2"),
    (PAIR.replace("lines 4", "lines 0") + "line 1 lower 3 3 value 2 by L10 pair", "no 2 form"),
    (PAIR.replace("lines 4", "lines 40"), "no 2 form"),
    ("evidence pair\nkind = 'words'", "no 2 form"),
    (CITED + CITED_LINE, "yes"),
    (CITED.replace("format = 2", "# none") + CITED_LINE, "no 2 evidence unknown"),
    (CITED.replace("cites = ['Golay 1949']", "# none") + CITED_LINE, "yes"),
    (PAIR.replace("lines 4\n", "lines 5\nformat = 1\n") + CITED_LINE, "yes"),
    *[(CITED.replace("['Golay 1949']", texts) + CITED_LINE, f"no 2 evidence {fault}" if fault else "yes") for texts, fault in CITES],
    *[(CITED.replace("= 2", f"= {number}") + CITED_LINE, f"no 2 evidence {fault}" if fault else "yes") for number, fault in FORMATS],
    ("line 1 lower 3 3 value 2 by L2\n" + PAIR, "no 3 form"),
    ("# a remark", "no 2 form"),
    ("", "no 2 form"),
    ("line 1 lower 3 3 value 2 by L2\n\u00e9", "no 3 form"),
]


def span(basis):
    """All sums of words."""
    sums = [0]
    for word in basis:
        sums += [word ^ other for other in sums]
    return sums


def texts(words, n):
    """A list of words as documents write it."""
    return "[" + ", ".join(f"'{word:0{n}b}'" for word in words) + "]"


# Fields of documents with a fault each, in the order in which faults are judged: what is wrong, what is refused of it, and what is right.
ORDERS = [
    [("kind = 'code'", "kind", "kind = 'cosets'"), ("format = 0", "field format", "format = 2"), ("n = 31", "field n", "n = 3"), ("d = 2", "field d", "d = 3"),
     ("basis = ''", "field basis", "basis = ['00']"), ("representatives = [0]", "field representatives", "representatives = []"),
     ("cites = ['']", "field cites", "cites = ['a']"), ("more = 1", "unknown", ""), ("", "digits 0", "basis = []"), ("", "size 0", "representatives = ['000']")],
    [("kind = 0", "kind", "kind = 'build'"), ("format = 3", "field format", "format = 2"), ("n = 0", "field n", "n = 4"), ("d = 31", "field d", "d = 4"),
     ("op = 'none'", "field op", "op = 'uuv'"), ("part = 'A'", "field part", "part = 'a'"), ("other = 1", "field other", "other = 'b'"),
     ("cites = 'a'", "field cites", "cites = ['a']"), ("more = 1", "unknown", ""), ("", "nosuch a", "")],
    [("kind = ''", "kind", "kind = 'dual'"), ("format = [2]", "field format", "format = 2"), ("n = 0", "field n", "n = 4"), ("d = 31", "field d", "d = 4"),
     ("even = 1", "field even", "even = true"), ("c = [-1]", "field c", "c = [0]"), ("y = [[3, 1]]", "field y", "y = []"),
     ("cites = [1]", "field cites", "cites = []"), ("more = 1", "unknown", ""), ("", "lead", "c = [1]")],
    [("kind = 'Odd'", "kind", "kind = 'odd'"), ("format = 0", "field format", "format = 2"), ("n = 0", "field n", "n = 4"),
     ("d = 31", "field d", "d = 4"), ("even = 1", "field even", "even = true"), ("m = 4", "field m", "m = 5"), ("c = [-1]", "field c", "c = [0]"),
     ("y = [[3, 1]]", "field y", "y = []"), ("cites = [1]", "field cites", "cites = []"), ("w = 2", "unknown", ""), ("", "lead", "c = [1]")],
    [("kind = 'parts'", "kind", "kind = 'partition'"), ("format = 3", "field format", "format = 2"), ("n = 0", "field n", "n = 4"), ("d = 5", "field d", "d = 4"),
     ("w = 5", "field w", "w = 2"), ("d1 = 5", "field d1", "d1 = 2"), ("classes = [0]", "field classes", "classes = [[], ['001']]"),
     ("cites = [['a']]", "field cites", "cites = ['a']"), ("more = 1", "unknown", ""), ("", "digits 0", "classes = [[], ['0011']]"), ("", "size 0", "classes = [['0011']]")],
    [("kind = 'pair'", "kind", "kind = 'product'"), ("format = 3", "field format", "format = 2"), ("n = 0", "field n", "n = 4"), ("d = 5", "field d", "d = 4"),
     ("w = -1", "field w", "w = 2"), ("pairs = []", "field pairs", "pairs = [['a', 'b']]"), ("cites = ['a', '']", "field cites", ""), ("more = 1", "unknown", ""),
     ("", "nosuch a", "")],
]


def in_order(fields):
    """Documents with all faults, with all but the first, and so on, each with what is refused of it; nothing of one that has none left."""
    right = []
    for at, (_, fault, better) in enumerate(fields):
        names = {line.split(" ")[0]: line for line in [*right, *(wrong for wrong, _, _ in fields[at:])] if line}
        yield "\n".join(names.values()), fault
        right.append(better)


class CheckDerivation(unittest.TestCase):
    def test_faults_are_judged_in_their_order(self):
        for fields in ORDERS:
            for document, fault in in_order(fields):
                with self.subTest(document=document):
                    self.assertEqual(check_derivation.verdict(f"derivation\nevidence a\n{document}\nend\n".encode()), f"no 2 evidence {fault}")

    @needs_program
    def test_the_program_judges_them_in_that_order(self):
        documents = [pair for fields in ORDERS for pair in in_order(fields)]
        documents += [(lines.split("\n", 1)[1].rsplit("\nline ", 1)[0], verdict.removeprefix("no 2 evidence ")) for lines, verdict in VERDICTS if "cites" in lines]
        said = session("".join(f"submit a lines {len(document.split(chr(10)))}\n{document}\nwithdraw a\n" for document, _ in documents)).splitlines()[::2]
        self.assertEqual(said, ["accepted a size 2" if fault == "yes" else f"refused {fault}" for _, fault in documents])

    def test_verdicts(self):
        for lines, verdict in VERDICTS:
            with self.subTest(lines=lines):
                self.assertEqual(check_derivation.verdict(f"derivation\n{lines}\ndone\n".encode()), verdict)

    def test_documents_that_end_too_early_or_too_late(self):
        line = b"line 1 lower 3 3 value 2 by L2\n"
        for document, verdict in [(b"", "no 1 form"), (b"derivation", "no 2 form"), (b"derivation\n" + line, "no 3 form"),
                                  (b"derivation\ndone\n", "no 2 form"), (b"derivation\n" + line + b"done\n\n", "no 4 form"),
                                  (b"derivation\n" + line + b"done", "yes"), (b"Derivation\n" + line + b"done\n", "no 1 form")]:
            with self.subTest(document=document):
                self.assertEqual(check_derivation.verdict(document), verdict)

    def test_a_dual(self):
        for old, new, verdict in [("32 by", "32 by", "yes"), ("32 by", "31 by", "no 13 value 31 32"), ("12, 48", "12, 47", "no 2 evidence above 12 48 47"),
                                  ("from 2 3", "from 3 2", "no 13 premise"), ("c = [5", "c = [0", "no 2 evidence lead")]:
            with self.subTest(new=new):
                self.assertEqual(run("check_derivation.py", text=DUAL.replace(old, new)), (verdict + "\n", "", int(verdict != "yes")))

    def test_a_code_seen_from_one_of_its_words(self):
        for old, new, verdict in [
                ("15 by", "15 by", "yes"), ("15 by", "17 by", "no 13 value 17 15"), ("V10 j8 from 3", "V10 j8", "no 13 premise"),
                ("V10 j8 from 3", "V10 j8 from 2", "no 13 premise"), ("V10 j8 from 3", "V9 j8", "no 13 rule"), ("V10 j8", "V10 j9", "no 13 rule"),
                ("8 4 4 value 15", "8 4 value 15", "no 13 rule"), ("2, 8]", "2, 7]", "no 2 evidence above 2 8 7"),
                ("c = [8", "c = [0", "no 2 evidence lead"),
                ("[[2, 8]]", "[[1, 8]]", "no 2 evidence field y"), ("[[2, 8]]", "[[2, 8], [5, 8]]", "no 2 evidence field y"),
                ("[[2, 8]]", "[[3, 0], [2, 8]]", "no 2 evidence field y"), ("w = 4\nc = [8", "w = 4\neven = false\nc = [8", "no 2 evidence unknown"),
                ("d = 4\nw = 4", "d = 5", "no 2 evidence field d"), ("w = 4\n", "", "no 2 evidence field w"),
                ('"jlocal"', '"jdual"', "no 2 evidence unknown"),
                ("y = [[2, 8]]", "y = [[2, 8], [4, 0]]", "yes"), ("8]]", "9]]", "no 13 value 15 16")]:
            with self.subTest(new=new):
                self.assertEqual(check_derivation.verdict(LOCAL.replace(old, new, 1).encode()), verdict)
        self.assertEqual(check_derivation.verdict(LOCAL_13.encode()), "yes")

    def test_the_bound_on_doubly_constant_codes(self):
        for line in (TOP / "bench/doubly.tsv").read_text().splitlines()[1:]:
            *code, bound, _ = map(int, line.split("\t"))
            self.assertEqual(check_derivation.doubly(*code), bound)

    def test_sizes_that_parity_excludes(self):
        odd, numbers = "by U12 o9 from 1", (20, 1, -21, 1048577, "21.0", "true", "'21'", "[21]")
        for old, new, verdict in [
                ("m = 21", "m = 21", "yes"), ("m = 21", "m = 23", "no 12 value 20 22"), ("m = 21", "m = 19", "no 12 rule"),
                ("m = 21", "m = 1048575", "no 12 value 20 1048574"), ("value 20", "value 21", "no 12 value 21 20"),
                (odd, "by U11 o9 from 1", "no 12 rule"), (odd, "by U12 o8 from 1", "no 12 rule"), (odd, "by U12 o9", "no 12 premise"),
                ("m = 21\n", "m = 19\nformat = 2\n", "no 13 rule"), ("9 4 value 20", "8 4 value 20", "no 12 rule"),
                (", 1, 1]", ", 1]", "no 2 evidence above 4 4 0"), ("8, 16", "8, 15", "no 2 evidence above 8 16 15"),
                ("c = [3", "c = [0", "no 2 evidence lead"), ('"odd"', '"dual"', "no 2 evidence unknown"),
                ('"odd"', '"jdual"', "no 2 evidence field w"),
                ("m = 21", "m = 21\nw = 4", "no 2 evidence unknown"), ("m = 21", "m = 20\nw = 4", "no 2 evidence field m"),
                ("m = 21\n", "", "no 2 evidence field m"), *[("m = 21", f"m = {m}", "no 2 evidence field m") for m in numbers]]:
            with self.subTest(new=new):
                self.assertEqual(check_derivation.verdict(ODD.replace(old, new, 1).encode()), verdict)
        premises = ODD.replace("m = 21", "m = 19").replace(odd, "by U12 o9 from 2")
        self.assertEqual(check_derivation.verdict(premises.encode()), "no 12 premise")

    def test_sizes_that_parity_excludes_at_an_odd_distance(self):
        for old, new, verdict in [("m = 7", "m = 7", "yes"), ("m = 7", "m = 5", "no 13 rule"), ("from 2 3 4", "from 2 4 3", "no 13 premise"),
                                  ("d = 3", "d = 3\neven = true", "no 2 evidence field even")]:
            with self.subTest(new=new):
                self.assertEqual(check_derivation.verdict(ODD_ODD.replace(old, new).encode()), verdict)
        self.assertEqual(check_derivation.verdict(ODD_LEAST.encode()), "yes")

    def test_the_worked_example_of_an_odd_number_of_words_is_so(self):
        text = next(text for text in (file.read_text() for file in (TOP / "docs").glob("*.md")) if "# An odd number of words: odd\n" in text)
        part = text.split("# An odd number of words: odd\n")[1].split("\n#")[0]
        block = "\n".join(line[4:] for line in part.split("by hand**")[1].split("\n") if line.startswith("    "))
        piece = check_derivation.Piece(block.encode())
        piece.check({})
        rows = [line.strip("| ").split(" | ") for line in re.findall(r"^\| [iKf].*$", part, re.M)]
        table = {name: [int(cell) for cell in cells] for name, *cells in rows}
        self.assertEqual(table.pop("i"), [0, *piece.range])
        for name, numbers in table.items():
            row = piece.f if name == "f" else lambda i: check_derivation.scheme_number(9, None, int(name[2]), i)
            self.assertEqual(numbers, [row(i) for i in (0, *piece.range)], name)
        self.assertEqual(check_derivation.verdict(ODD.encode()), "yes")
        self.assertEqual(tomllib.loads(block), tomllib.loads(ODD.split("o9\n", 1)[1].split("end\n")[0]))

    def test_builds_and_partitions(self):
        partition = "evidence p4 lines 5\nkind = 'partition'\nn = 4\nd = 4\nd1 = 2\nclasses = [['0000', '1111'], ['0011', '1100'], ['0101', '1010']]\n"
        product = "evidence e8 lines 4\nkind = 'product'\nn = 8\nd = 4\npairs = [['p4', 'p4']]\n"
        trim = "evidence t lines 6\nkind = 'build'\nop = 'trim'\nn = 8\nd = 4\nsize = 9\npart = 'e8'\n"
        for lines, verdict in [(partition + product + "line 1 lower 8 4 value 12 by L10 e8", "yes"),
                               (partition + product + trim + "line 1 lower 8 4 value 9 by L10 t", "yes"),
                               (partition + trim + "line 1 lower 8 4 value 9 by L10 t", "no 8 evidence nosuch e8"),
                               (partition + "line 1 lower 4 4 value 6 by L10 p4", "no 8 rule")]:
            with self.subTest(lines=lines):
                self.assertEqual(check_derivation.verdict(f"derivation\n{lines}\ndone\n".encode()), verdict)

    def test_large_evidence_is_checked_in_time(self):
        checks = [x for x in range(3, 64) if x.bit_count() > 1]
        basis = [1 << i | checks[i] << 14 for i in range(14)]
        words, long = span(basis), [1 << i | checks[i] << 22 for i in range(22)]
        random.Random(1).shuffle(words)
        for keys, n, size in [(f"kind = 'words'\nwords = {texts(words, 20)}", 20, 16384),
                              (f"kind = 'cosets'\nbasis = []\nrepresentatives = {texts(words[:4096], 20)}", 20, 4096),
                              (f"kind = 'cosets'\nbasis = {texts(long, 28)}\nrepresentatives = {texts([0], 28)}", 28, 2 ** 22),
                              (f"kind = 'partition'\nd1 = 1\nclasses = [{texts(words[:2000], 20)}, {texts([w ^ 1 for w in words[:2000]], 20)}]", 20, None)]:
            line = f"line 1 lower {n} 3 value {size} by L10 a" if size else f"line 1 lower {n} 3 value 2 by L2"
            begin = time.process_time()
            self.assertEqual(check_derivation.verdict(f"derivation\nevidence a\nn = {n}\nd = 3\n{keys}\nend\n{line}\ndone\n".encode()), "yes")
            self.assertLess(time.process_time() - begin, 2)

    def test_the_first_pair_that_is_too_close_is_that_of_all_pairs(self):
        chance, seen = random.Random(1), set()
        for _ in range(300):
            n, d = chance.randrange(8, 20), chance.randrange(3, 5)
            words = chance.sample(range(2 ** n), chance.randrange(2, 6))
            of = sorted(chance.randrange(2) for _ in words)
            pairs = [(i, j) for i in range(len(words)) for j in range(i + 1, len(words))]
            near = {(i, j): (words[i] ^ words[j]).bit_count() for i, j in pairs}
            first = next(((i, j) for i, j in pairs if near[i, j] < d), None)
            self.check(f"kind = 'words'\nwords = {texts(words, n)}", n, d, first and "close {} {} {}".format(*first, near[first]))
            basis = chance.sample(range(1, 2 ** n), 2)
            sums = [word ^ other for word in words for other in span(basis)]
            first = next(((i, j) for i in range(len(sums)) for j in range(i + 1, len(sums)) if (sums[i] ^ sums[j]).bit_count() < d), None)
            self.check(f"kind = 'cosets'\nbasis = {texts(basis, n)}\nrepresentatives = {texts(words, n)}", n, d,
                       first and "close {} {} {}".format(*first, (sums[first[0]] ^ sums[first[1]]).bit_count()))
            if 0 in of and 1 in of:
                need = {(i, j): d if of[i] == of[j] else 2 for i, j in pairs}
                first = next(((i, j) for i, j in pairs if near[i, j] < need[i, j]), None)
                classes = ", ".join(texts([word for word, one in zip(words, of) if one == c], n) for c in (0, 1))
                self.check(f"kind = 'partition'\nd1 = 2\nclasses = [{classes}]", n, d, first and "close {} {} {} classes {} {} need {}".format(
                    *first, near[first], of[first[0]], of[first[1]], need[first]))
            seen.add(first is None)
        self.assertEqual(seen, {True, False})

    def check(self, keys, n, d, refusal):
        """Whether the evidence is refused so, or is none."""
        said = check_derivation.verdict(f"derivation\nevidence a\nn = {n}\nd = {d}\n{keys}\nend\nline 1 lower {n} {d} value 1 by L1\ndone\n".encode())
        self.assertEqual(said, f"no 2 evidence {refusal}" if refusal else "yes")

    def test_documents_whose_verdict_is_known(self):
        for group in tomllib.loads((TOP / "crates/ct_rows/data/verdicts.toml").read_text())["group"]:
            for text, verdict in group["rows"]:
                with self.subTest(group=group["name"], text=text):
                    document = b"\xff".join(part.encode() for part in (group["before"] + text + group["after"]).split("\ufffd"))
                    self.assertEqual(check_derivation.verdict(document), verdict)

    @needs_program
    def test_the_program_says_the_same(self):
        if session(mutations.SHORT, "verify") != "yes\n":
            self.skipTest("this program verifies nothing yet")
        documents = [f"derivation\n{lines}\ndone\n" for lines, _ in VERDICTS] + [DUAL, ODD, ODD.replace("m = 21", "m = 19"), ODD_ODD, ODD_LEAST]
        for document in [*filter(mutations.is_built, documents), *mutations.changed(mutations.documents(), 300)]:
            with self.subTest(document=document):
                self.assertEqual(*mutations.verdicts(document))

    @needs_program
    def test_explanations_of_the_examples_are_derivations(self):
        checked = 0
        for document in mutations.documents()[1:]:
            self.assertEqual(mutations.verdicts(document), ("yes\n", "yes\n"), document)
            checked += 1
        if not checked:
            self.skipTest("this program explains nothing yet")


if __name__ == "__main__":
    unittest.main()

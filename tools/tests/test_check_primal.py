"""Primals are checked as docs/RULES.md says, and the dual beside each: the bound of both is the least."""

import re
import unittest

from support import TOP, call, needs_program, session

import check_primal
from check_primal import Primal

# A dual of (16,6) of even distances and one of (8,4,4), each with its primal.
PLAIN = """# bound 256 least
# primal 1 6:112 8:30 10:112 16:1
submit find-16-6 lines 5
kind = "dual"
n = 16
d = 6
even = true
c = [20, 20, 6, 4, 1]
"""
WEIGHT = """# bound 14 least
# primal 48 2:576 4:48
submit find-8-4-4 lines 5
kind = "jdual"
n = 8
d = 4
w = 4
c = [48, 21, 4]
"""
# A dual of n + 1 ones, which the run gives where it doesn't end as least.
ONES = '# bound 16 turns 0\nsubmit find-4-3 lines 4\nkind = "dual"\nn = 4\nd = 3\nc = [1, 1, 1, 1, 1]\n'


def product_of(text):
    """The whole number of a text, or of a product of two."""
    first, *second = map(int, text.split("·"))
    return first * (second[0] if second else 1)


class CheckPrimal(unittest.TestCase):
    def test_what_is_shown_to_be_least(self):
        out, said, status = call("check_primal", text=PLAIN + "none\nrefused entry\n" + WEIGHT + "refused command\n" + ONES)
        self.assertEqual((said, status), ("", 0))
        self.assertEqual(out, "A(16,6): 256 is the least bound\nA(8,4,4): 14 is the least bound\n"
                              "A(4,3): 16 is a bound, not shown to be the least: the run ended as turns 0\n")

    def test_what_is_not_so_is_named(self):
        for text, old, new, why in [
                (PLAIN, "10:112", "10:113", "not sound: for k = 1 the sum is -4, below 0"),
                (WEIGHT, "48 2:576 4:48", "1 2:12 4:2", "not sound: for k = 1 the sum is -16, below 0"),
                (PLAIN, "8:30 10:112 16:1", "8:30 10:112", "not sound: for k = 2 the sum is -120, below 0"),
                (PLAIN, "primal 1", "primal 0", "not sound: the scale 0 is not"), (PLAIN, "primal 1", f"primal {2 ** 63}", f"not sound: the scale {2 ** 63} is not"),
                (PLAIN, "16:1", "16:0", "not sound: the number 0 at 16 is not"), (PLAIN, "16:1", f"16:{2 ** 63}", f"not sound: the number {2 ** 63} at 16"),
                (PLAIN, " 8:30", " 7:30", "not sound: 7 is no index"), (PLAIN, " 8:30", " 4:30", "not sound: 4 is no index"),
                (WEIGHT, "4:48", "5:48", "not sound: 5 is no index"), (PLAIN, "6:112 8:30", "8:30 6:112", "not sound: the indices don't ascend"),
                (PLAIN, "8:30", "8:30 8:30", "not sound: the indices don't ascend"), (PLAIN, "1 6:112 8:30 10:112 16:1", "1", "the primal's value is 1, and 256 is printed"),
                (PLAIN, "256", "255", "the dual's bound is 256, and 255 is printed"), (PLAIN, "[20,", "[0,", "the dual is refused: lead"),
                (PLAIN, "20, 6,", "20, 7,", "the dual is refused: above 16 120 0"), (PLAIN, "lines 5", "lines 6\ny = [[6, 1]]", "the dual has a y"),
                (PLAIN, "find-16-6", "find-16-8", "no dual of this entry"), (PLAIN, "find-16-6", "find-31-6", "no dual of this entry"),
                (PLAIN, "least", "wide", "the run ended as wide, and a primal is printed"), (ONES, "turns 0", "least", "the run ended as least, and no primal is printed"),
                (ONES, "bound 16", "bound 17", "the dual's bound is 16, and 17 is printed")]:
            with self.subTest(new=new):
                self.assertEqual(text.count(old), 1)
                out, said, status = call("check_primal", text=text.replace(old, new))
                self.assertEqual((said, status), ("", 1))
                self.assertIn(why, out)

    def test_a_primal_of_odd_distances_too(self):
        primal = Primal(48, ((3, 336), (4, 336), (7, 48)))
        self.assertIsNone(check_primal.fault((7, 3), False, primal))
        self.assertEqual(check_primal.value(primal), 16)
        self.assertEqual(check_primal.fault((7, 4), True, Primal(1, ((7, 1),))), "7 is no index of the entry")

    def test_a_value_is_rounded_down_and_at_most_the_greatest_bound(self):
        self.assertEqual([check_primal.value(Primal(3, ((4, a),))) for a in (0, 2, 3, 5, 6, 3 * 2 ** 30)], [1, 1, 2, 2, 3, 2 ** 30])

    def test_a_primal_without_pairs(self):
        self.assertEqual(check_primal.primal_of("# primal 1"), Primal(1, ()))
        self.assertIsNone(check_primal.fault((3, 4), True, Primal(1, ())))
        for line in ("# primal", "# primal 1 ", "# primal 1  4:1", "# primal 1 4", "# primal -1", "#primal 1", "# primal 1 4:-1"):
            self.assertIsNone(check_primal.primal_of(line), line)

    def test_what_is_no_output_of_find_is_refused(self):
        for text, line in [("accepted a\n", 1), (PLAIN + "16 6\n", 9), (PLAIN.replace("lines 5", "lines 7"), 1), ("# bound 256 least\n", 1),
                           (PLAIN.replace("# primal", "# a primal"), 1), (PLAIN.replace("find-16-6", "a"), 1)]:
            with self.subTest(text=text):
                out, said, status = call("check_primal", text=text)
                self.assertEqual(status, 1)
                self.assertIn(f"check_primal: refused: line {line} begins no reply", said)

    def test_the_worked_primals_of_the_document_are_so(self):
        text = (TOP / "docs/RULES.md").read_text().split("### Least, shown by a primal")[1]
        for part, entry, even, bound in zip(text.split(" by hand.**")[1:], [(16, 6), (8, 4, 4)], (True, False), (256, 14)):
            primal = check_primal.primal_of(re.search(r"# primal [0-9: ]*[0-9]", part)[0])
            self.assertEqual((check_primal.fault(entry, even, primal), check_primal.value(primal)), (None, bound))
            rows = [[product_of(cell) for cell in row.split(" | ")] for row in re.findall(r"^\| ([0-9].*) \|$", part, re.M)]
            sums = dict(check_primal.sums(entry, primal))
            self.assertEqual([row[0] for row in rows], list(range(1, len(rows) + 1)))
            for k, *terms, total in rows:
                self.assertEqual((sum(terms), sums[k]), (total, total))
            self.assertTrue(all(sums[k] == sums[16 - k] for k in range(9, 16)) if even else len(rows) == len(sums))

    @needs_program
    def test_what_the_program_prints_is_so(self):
        printed = session("16 6\n8 4 4\n5 4\n7 3\n30 15\n4 4 0\n", "find")
        if "# primal" not in printed:
            self.skipTest("this program prints no primal")
        out, said, status = call("check_primal", text=printed)
        self.assertEqual((said, status), ("", 0))
        self.assertEqual(out.count(" is the least bound\n"), 6)


if __name__ == "__main__":
    unittest.main()

"""A solver's multipliers become duals, which the program accepts."""

import unittest

from support import CITE_FAULTS, call, data, needs_program, run, session


def lines(letter, numbers, scale):
    """Multipliers as a solver writes them, with twelve digits."""
    return "".join(f"{letter} {at} {value / scale:.12g}\n" for at, value in numbers)


class SubmitDual(unittest.TestCase):
    def test_decimals_become_small_whole_numbers(self):
        for words, c, y, made in [
                (("a", 13, 6), [5, 1, 1], [(10, 16), (12, 48)], "c = [5, 1, 1]\ny = [[10, 16], [12, 48]]\n"),
                (("a", 24, 10), [32, 27, 8, 3], [], "c = [32, 27, 8, 3]\n"),
                (("a", 16, 6), [60, 60, 18, 12, 3], [], "c = [20, 20, 6, 4, 1]\n"),
                (("a", 14, 6, 6), [794, 127, 16, 3], [], None)]:
            with self.subTest(words=words):
                out, said, status = run("submit_dual.py", *words, text=lines("c", enumerate(c), 7.1) + lines("y", y, 7.1))
                self.assertEqual((said, status), ("", 0))
                if made:
                    self.assertIn(made, out)

    def test_fractions_are_read(self):
        self.assertIn("c = [3, 1, 1]\ny = [[8, 16]]\n", run("submit_dual.py", "a", 9, 4, text="c 0 1\nc 1 1/3\nc 2 1/3\ny 8 16/3\n")[0])

    def test_an_odd_distance_has_all_distances(self):
        out, said, status = run("submit_dual.py", "a", 3, 3, text="c 0 1\nc 1 1\n")
        self.assertEqual((said, status), ("", 0))
        self.assertNotIn("even", out)

    def test_what_is_missed_is_said(self):
        for words, text, fault in [
                ((13, 6), "c 0 1\nc 1 0.2\nc 2 0.2\ny 10 3.2\ny 12 9.4\n", "missed at 12: f is 9.6, above 9.4 by 0.2"),
                ((13, 6), "c 0 1\nc 1 -0.2\n", "c 1 is -0.2, below 0"), ((13, 6), "c 1 1\n", "c 0 is not above 0"),
                ((13, 6), "c 0 x\n", "line 1: x is no decimal"), ((13, 6), "c 14 1\n", "line 1: there is no multiplier c 14"),
                ((13, 6), "y 7 1\n", "line 1: there is no multiplier y 7"), ((13, 6), "c 0\n", "line 1 has not the form"),
                ((13, 6), "u 8 0\n", "line 1: 0 is no number of words from 1 on"), ((13, 6), "u 8 3/2\n", "line 1: 3/2 is no number of words"),
                ((13, 6), "u 9 1\n", "line 1: there is no bound u 9 at this entry"), ((8, 4, 4), "u 2 1\n", "line 1: there is no bound u 2"),
                ((13, 6), "cy 0 1\n", "line 1 has not the form"), ((13, 6), "c 01 1\n", "line 1: 01 is no whole number below 2^64"),
                ((13, 6), "c 18446744073709551616 1\n", "line 1: 18446744073709551616 is no whole number below 2^64"), ((13, 6), "c 0 1e999999999\n", "line 1: 1e999999999 is no decimal and no fraction"),
                ((13, 6), "c 0 1/0\n", "line 1: 1/0 is no decimal"), ((13, 6), "c 0 nan\n", "line 1: nan is no decimal"),
                ((8, 4, 4), "y 2 1\n", "line 1: there is no multiplier y 2"), ((31, 4), "", "A(31,4) is no entry"),
                ((8, 5, 4), "", "A(8,5,4) is no entry")]:
            with self.subTest(fault=fault):
                out, said, status = call("submit_dual", "a", *words, text=text)
                self.assertEqual((out, status), ("", 1))
                self.assertIn("submit_dual: refused: " + fault, said)

    def test_an_odd_number_of_words_is_excluded(self):
        # Of (25,12) by hand: f(0) = 7040, the words at distance 18 add 152·A(25,12,18), and of the farther ones 448·1 is the greatest.
        nine = "c 0 1\nc 1 .3333333\nc 2 .3333333\ny 8 5.333333\n"
        five = "c 0 1\ny 3 1\ny 4 1\ny 5 1\n"
        six = "c 0 1\ny 3 1\ny 4 1\ny 5 1\ny 6 1\n"
        twelve = "c 0 115\nc 1 41\nc 2 12\nc 3 1\ny 18 152\ny 20 320\ny 22 440\ny 24 448\n"
        for words, text, made in [
                ((9, 4, "--odd", 21), nine, "# A(9,4) <= 20, by the premises A(9,4,8) <= 1\nsubmit a\n"
                 'kind = "odd"\nn = 9\nd = 4\neven = true\nm = 21\nc = [3, 1, 1]\ny = [[8, 16]]\nend\n'),
                ((5, 3, "--odd", 5), five, "# A(5,3) <= 4, by the premises A(5,4,3) <= 2, A(5,4,4) <= 1, A(5,4,5) <= 1\nsubmit a\n"
                 'kind = "odd"\nn = 5\nd = 3\nm = 5\nc = [1]\ny = [[3, 1], [4, 1], [5, 1]]\nend\n'),
                ((6, 3, "--odd", 11), six, "# A(6,3) <= 10, by the premises A(6,4,3) <= 4, A(6,4,4) <= 3, A(6,4,5) <= 1, A(6,4,6) <= 1\n"),
                ((25, 12, "--odd", 71), "u 18 5\n" + twelve, "# A(25,12) <= 70, by the premises A(25,12,18) <= 5, A(25,12,20) <= 1, "),
                ((25, 12), "u 18 5\n" + twelve, "# A(25,12) <= 71, by the premises A(25,12,18) <= 5, "),
                ((25, 12), "u 18 999\n" + twelve, "# A(25,12) <= 82, by the premises A(25,12,18) <= 13, ")]:
            with self.subTest(words=words):
                out, said, status = call("submit_dual", "a", *words, text=text)
                self.assertEqual((out[:len(made)], said, status), (made, "", 0))

    def test_what_excludes_no_odd_number_of_words_is_refused(self):
        nine = "c 0 1\nc 1 1/3\nc 2 1/3\ny 8 16/3\n"
        form = "--odd takes an odd number from 3 to 1048575, at an entry without weight"
        few = "the multipliers don't exclude {} words: L is {}, not above {}\u00b7E = {}, with c_0 = 1"
        # Of (6,3) by hand: f is 1 everywhere, E = 1 + A(6,4,3) + A(6,4,4) + 1 = 1 + 4 + 3 + 1, and L is the square of m.
        six = "c 0 1\ny 3 1\ny 4 1\ny 5 1\ny 6 1\n"
        for words, text, fault in [((9, 4, "--odd", 19), nine, few.format(19, 376, 19, 405.333)), ((6, 3, "--odd", 9), six, few.format(9, 81, 9, 81)),
                                   *[((9, 4, "--odd", m), nine, form) for m in (20, 1, 0, 1048577)], ((8, 4, 4, "--odd", 15), nine, form)]:
            with self.subTest(words=words):
                out, said, status = call("submit_dual", "a", *words, text=text)
                self.assertEqual((out, said, status), ("", f"submit_dual: refused: {fault}\n", 1))

    def test_the_first_multiplier_is_lowered_or_raised(self):
        twelve = "c 0 565\nc 1 203\nc 2 59\nc 3 5\ny 18 724\ny 20 1520\ny 22 2060\ny 24 2024\nu 18 5\n"
        for words, text, made in [((25, 12, "--odd", 71), twelve, "\nc = [115, 41, 12, 1]\ny = [[18, 152], [20, 320], [22, 440], [24, 448]]\n"),
                                  ((8, 4), "c 0 3\nc 1 1\ny 4 3\ny 6 1\n", "\nc = [3, 1]\ny = [[4, 3]]\n"),
                                  ((13, 6), "c 0 5.000001\nc 1 1\nc 2 1\ny 10 16\ny 12 48\n", "\nc = [5, 1, 1]\ny = [[10, 16], [12, 48]]\n")]:
            with self.subTest(words=words):
                self.assertIn(made, call("submit_dual", "a", *words, text=text)[0])

    def test_numbers_of_the_command_line_are_whole(self):
        for words in (("1_3", 6), ("13.0", 6), (13, "-6"), (13, 6, "x"), (13, "18446744073709551616"), (9, 4, "--odd", "21.0")):
            with self.subTest(words=words):
                out, said, status = call("submit_dual", "a", *words, text="c 0 1\n")
                self.assertEqual((out, status), ("", 2))

    def test_the_document_cites_what_is_said(self):
        out, said, status = run("submit_dual.py", "a", 8, 4, 4, "--cite", "P. Name, 1973", text="c 0 4\nc 1 1.75\nc 2 0.3333333333\n")
        self.assertEqual((said, status), ("", 0))
        self.assertIn('\nsubmit a\nformat = 2\ncites = ["P. Name, 1973"]\nkind = "jdual"\n', out)

    def test_what_no_document_cites_is_refused(self):
        for cites, fault in CITE_FAULTS:
            with self.subTest(fault=fault):
                words = [word for text in cites for word in ("--cite", text)]
                out, said, status = call("submit_dual", "a", 13, 6, *words, text=data("d13.multipliers"))
                self.assertEqual((out, status), ("", 1))
                self.assertIn("submit_dual: refused: " + fault, said)

    @needs_program
    def test_the_program_keeps_the_cites(self):
        made = run("submit_dual.py", "a", 13, 6, "--cite", "One, 1973", "--cite", "Another, 1978", text=data("d13.multipliers"))[0]
        self.assertEqual(session(made + "ledger\n"), "accepted a\na dual 13 6 cites 2\npieces 1\n")

    @needs_program
    def test_the_program_takes_a_dual_that_excludes_a_size(self):
        made = run("submit_dual.py", "a", 9, 4, "--odd", 21, "--cite", "One, 1978", text="c 0 3\nc 1 1\nc 2 1\ny 8 16\n")[0]
        self.assertEqual(session(made + "show 9 4\nshow 8 3\nledger\n").splitlines(),
                         ["accepted a", "16 <= A(9,4) <= 20", "16 <= A(8,3) <= 20", "a odd 9 4 cites 1", "pieces 1"])

    def test_a_code_is_seen_from_a_word(self):
        five = "c 0 1\nc 1 .0872727273\nc 2 .0059090909\ny 3 .78\n"
        said = "# A(13,6,5) <= {}, with at most {} words at distance 6 from a word\nsubmit a\nkind = \"jlocal\"\nn = 13\nd = 6\nw = 5\nc = "
        for text, bound, words in [(five, 20, 16), (five + "u 3 12\n", 17, 12), (five + "u 3 30\n", 20, 16)]:
            with self.subTest(text=text):
                out, fault, status = call("submit_dual", "a", 13, 6, 5, "--local", text=text)
                self.assertEqual((fault, status), ("", 0))
                self.assertIn(said.format(bound, words), out)
        for words, text, fault in [((13, 6, "--local"), five, "--local takes an entry with weight"),
                                   ((13, 6, 5, "--local", "--odd", 21), five, "--odd takes an odd number from 3 to 1048575, at an entry without weight"),
                                   ((13, 6, 5, "--local"), "y 2 1\n", "line 1: there is no multiplier y 2 at this entry"),
                                   ((13, 6, 5, "--local"), five.replace(".78", ".7"), "missed at 3: f is 0.78, above 0.7 by 0.08")]:
            with self.subTest(fault=fault):
                self.assertEqual(call("submit_dual", "a", *words, text=text), ("", f"submit_dual: refused: {fault}\n", 1))

    @needs_program
    def test_the_program_takes_a_dual_that_sees_a_code_from_a_word(self):
        made = run("submit_dual.py", "a", 13, 6, 5, "--local", "--cite", "One, 1972", text="c 0 2200\nc 1 192\nc 2 13\ny 3 1716\n")[0]
        self.assertEqual(session(made + "show 13 6 5\nledger\n").splitlines(),
                         ["accepted a", "3 <= A(13,6,5) <= 20", "a jlocal 13 6 5 cites 1", "pieces 1"])

    @needs_program
    def test_the_program_accepts_them(self):
        made = run("submit_dual.py", "a", 13, 6, text=data("d13.multipliers"))[0] + run("submit_dual.py", "b", 8, 4, 4, text="c 0 4\nc 1 1.75\nc 2 0.3333333333\n")[0]
        replies = session(made + "show 13 6\nshow 8 4 4\n")
        said = replies.splitlines()
        self.assertEqual(said[:2], ["accepted a", "accepted b"])
        self.assertEqual([line.split()[-1] for line in said[2:]], ["32", "14"])


if __name__ == "__main__":
    unittest.main()

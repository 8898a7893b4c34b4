"""Words become submissions, which the program accepts."""

import random
import tempfile
import time
import unittest

from support import CITE_FAULTS, call, needs_program, run, session

from code_tables import sessions
from code_tables.cites import cites_of


def text(words, n):
    return "".join(f"{word:0{n}b}\n" for word in words)


def span(basis):
    sums = [0]
    for word in basis:
        sums += [word ^ other for other in sums]
    return sums


def large():
    """The 4,096 words of Golay's code, as shifts of one word with a parity digit, in a random order."""
    words = span([int("101011100011" + "0" * 11, 2) >> shift << 1 | 1 for shift in range(12)])
    random.Random(1).shuffle(words)
    return words


class SubmitWords(unittest.TestCase):
    def test_words_with_one_weight(self):
        out, said, status = run("submit_words.py", "pairs", text="1100\n0011\n")
        self.assertEqual((said, status), ("", 0))
        self.assertIn('kind = "words"\nn = 4\nd = 4\nw = 2\nwords = ["1100", "0011"]\nend\n', out)

    def test_no_weight_is_stated_where_asked(self):
        self.assertNotIn("w = ", run("submit_words.py", "pairs", "--no-weight", text="1100\n0011\n")[0])

    def test_digits_may_be_separated(self):
        self.assertIn('words = ["10110", "01001"]', run("submit_words.py", "a", text="[ 1, 0, 1, 1, 0 ]\n# a remark\n\n0 1 0 0 1\n")[0])

    def test_many_words_become_cosets(self):
        words = large()
        out, _, status = run("submit_words.py", "many", text=text(words, 24))
        self.assertEqual(status, 0)
        self.assertLess(len(out), 900)
        self.assertIn('kind = "cosets"\nn = 24\nd = 8\n', out)
        self.assertIn("# 4096 words of length 24 at distance 8, over a kernel of dimension 12", out)

    def test_five_cosets_keep_their_kernel(self):
        kernel = span([0b111100000000, 0b000011110000, 0b000000001111])
        words = [x ^ y for x in kernel for y in (0, 0b110011000000, 0b000011001100, 0b101010100000)]
        out, _, status = run("submit_words.py", "five", "--distance", "3", text=text(words, 12))
        self.assertEqual(status, 0, out)
        self.assertIn("32 words of length 12 at distance 3, over a kernel of dimension 3", out)

    def test_a_generator_matrix(self):
        out, _, status = run("submit_words.py", "hamming", "--generator", text="1000011\n0100101\n0010110\n0001111\n1100110\n")
        self.assertEqual(status, 0)
        self.assertIn("16 words of length 7 at distance 3", out)
        self.assertIn('representatives = ["0000000"]', out)

    def test_faults_are_named_and_nothing_is_written(self):
        for words, more, fault in [
                ("", [], "there is no word"), ("01\n012\n", [], "line 2 is no word of digits 0 and 1: `012`"),
                ("01\n011\n", [], "line 2 has 3 digits, and the first word has 2: `011`"),
                ("0110\n# x\n0110\n", [], "line 3 has the word of line 1 again: `0110`"), ("0000\n0011\n", [], "the distance is 2"),
                ("0000\n", [], "one word has no distance"), ("[[0, 1], [1\n", [], "a bracket isn't closed"),
                ("0" * 31 + "\n", [], "the words have length 31"), ]:
            with self.subTest(fault=fault):
                out, said, status = call("submit_words", "a", *more, text=words)
                self.assertEqual((out, status), ("", 1))
                self.assertIn("submit_words: refused: " + fault, said)
        self.assertIn("Bad is no id", run("submit_words.py", "Bad", text="0000\n1111\n")[1])

    def test_words_without_structure_take_no_minutes(self):
        words = random.Random(1).sample(span([1 << i | (i * 37 + 11) % 256 << 20 for i in range(20)]), 16384)
        for more in ((), ("--distance", "3")):
            begin = time.monotonic()
            out, said, status = run("submit_words.py", "many", *more, text=text(words, 28))
            self.assertLess(time.monotonic() - begin, 20)
            if more:
                self.assertEqual((status, out.splitlines()[0]), (0, "# 16384 words of length 28 at distance 3, over a kernel of dimension 0"))
            else:
                self.assertIn("the distance is 2", said)

    def test_a_code_that_nearly_has_a_kernel_takes_no_minutes(self):
        words = span([1 << i | (i * 37 + 11) % 256 << 14 for i in range(14)])[1:]
        begin = time.monotonic()
        out, _, status = run("submit_words.py", "many", text=text(words, 22))
        self.assertLess(time.monotonic() - begin, 20)
        self.assertEqual((status, out.splitlines()[0]), (0, "# 16383 words of length 22 at distance 3, over a kernel of dimension 0"))

    def test_kernels_and_distances_are_those_of_all_pairs(self):
        from code_tables.words import distance, kernel
        chance = random.Random(1)
        for _ in range(100):
            basis = [chance.getrandbits(8) for _ in range(chance.randrange(4))]
            words = list({x ^ y for x in span(basis) for y in [chance.getrandbits(8) for _ in range(chance.randrange(1, 5))]})
            differences = {word ^ words[0] for word in words}
            self.assertEqual(set(span(kernel(words))), {k for k in differences if all(k ^ word in words for word in words)})
            self.assertEqual(distance(words), min(((a ^ b).bit_count() for a in words for b in words if a != b), default=None))

    def test_a_byte_order_mark_is_passed_over(self):
        self.assertIn('words = ["1100", "0011"]', run("submit_words.py", "a", text="\ufeff1100\n0011\n")[0])

    def test_words_of_a_file(self):
        with tempfile.NamedTemporaryFile() as file:
            file.write(b"1100\r\n0011\r\n")
            file.flush()
            self.assertIn('words = ["1100", "0011"]', run("submit_words.py", "a", file.name)[0])
        self.assertEqual(run("submit_words.py", "a", "no/such")[1], "submit_words: refused: no/such can't be read: No such file or directory\n")

    def test_lists_of_python_and_gap(self):
        for words in ("[[1, 1, 0, 0], [0, 0, 1, 1]]", "['1100',\n '0011']\n", "[(1, 1, 0, 0),\n (0, 0, 1, 1)]", "[[1 1 0 0]\n [0 0 1 1]]",
                      "[ [ Z(2)^0, Z(2)^0, 0*Z(2), 0*Z(2) ], \n  [ 0*Z(2), 0*Z(2), Z(2)^0, Z(2)^0 ] ]\n", "[ [ 1, 1, \n0, 0 ],\n [ 0, 0, 1, 1 ] ]",
                      '[ "1100", "0011" ]', " 1 1 . .\n . . 1 1\n", "{'1100', '0011'}", "1100,\n0011,\n"):
            with self.subTest(words=words):
                self.assertIn('words = ["1100", "0011"]', call("submit_words", "a", text=words)[0])

    def test_a_comment_writes_no_command(self):
        out = run("submit_words.py", "a", "--comment", "found\nshow 5 3\rwithdraw a\n", text="1100\n0011\n")[0]
        self.assertTrue(out.startswith("# found\n# show 5 3\n# withdraw a\nsubmit a\n"), out)

    def test_the_document_cites_what_is_said(self):
        out, said, status = run("submit_words.py", "a", "--cite", 'A. Name, A "title"', "--cite", "~ \\ " + "x" * 196, text="1100\n0011\n")
        self.assertEqual((said, status), ("", 0))
        fields = sessions.commands(out)[0].fields
        self.assertEqual((cites_of(fields), fields["w"]), (['A. Name, A "title"', "~ \\ " + "x" * 196], 2))
        self.assertEqual(out.count("format = 2\n"), 1)
        self.assertNotIn("format", run("submit_words.py", "a", text="1100\n0011\n")[0])

    def test_options_may_stand_before_and_behind_the_file(self):
        with tempfile.NamedTemporaryFile() as file:
            file.write(b"1100\n0011\n")
            file.flush()
            expected = call("submit_words", "a", file.name, "--cite", "A. Name, 1990")
            self.assertIn('cites = ["A. Name, 1990"]', expected[0])
            for words in (["a", "--cite", "A. Name, 1990", file.name], ["--cite", "A. Name, 1990", "a", file.name], ["a", "--cite=A. Name, 1990", "--", file.name]):
                self.assertEqual(call("submit_words", *words), expected)

    def test_what_no_document_cites_is_refused(self):
        for cites, fault in CITE_FAULTS:
            with self.subTest(fault=fault):
                words = [word for text in cites for word in ("--cite", text)]
                out, said, status = call("submit_words", "a", *words, text="1100\n0011\n")
                self.assertEqual((out, status), ("", 1))
                self.assertIn("submit_words: refused: " + fault, said)

    @needs_program
    def test_the_program_keeps_the_cites(self):
        words = [word for number in range(16) for word in ("--cite", f'{number}: a "name" and \\')]
        made = run("submit_words.py", "a", *words, text="1100\n0011\n")[0]
        self.assertEqual(session(made + "ledger\n"), "accepted a size 2\na words 4 4 2 size 2 cites 16\npieces 1\n")

    @needs_program
    def test_the_program_accepts_them(self):
        made = [run("submit_words.py", "pairs", text="1100\n0011\n")[0], run("submit_words.py", "many", text=text(large(), 24))[0],
                run("submit_words.py", "one", "--distance", "30", text="01\n")[0],
                run("submit_words.py", "hamming", "--generator", text="1000011\n0100101\n0010110\n0001111\n")[0]]
        self.assertEqual(session("".join(made)), "accepted pairs size 2\naccepted many size 4096\naccepted one size 1\naccepted hamming size 16\n")


if __name__ == "__main__":
    unittest.main()

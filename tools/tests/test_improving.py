"""Evidence is compared with the library and with published values: words, generators, lists and submissions, with ids that are free."""

import doctest
import tempfile
import unittest
from pathlib import Path
from unittest import mock

from support import TOP, needs_program
from test_cli import code_tables

from code_tables import Bounds, Refusal, improving
from code_tables.sessions import Command

GENERATORS = "1000011\n0100101\n0010110\n0001111\n"
PAIR = "# two words\nsubmit golay\nkind = 'words'\nn = 6\nd = 6\nwords = ['000000', '111111']\nend\n"
BUILT = PAIR + "submit other\nkind = 'build'\nop = 'extend'\nn = 7\nd = 6\npart = 'golay'\nend\n"


class Evidence(unittest.TestCase):
    def test_its_examples(self):
        self.assertEqual(doctest.testmod(improving).failed, 0)

    def test_what_a_file_may_have(self):
        for text, more, kind, size in (("1100\n0011\n", {}, "words", 2), ("[[1, 1, 0, 0],\n [0, 0, 1, 1]]", {}, "words", 2), (GENERATORS, {"generator": True}, "cosets", None),
                                       ("[ [ Z(2)^0, Z(2)^0, 0*Z(2), 0*Z(2) ], [ 0*Z(2), 0*Z(2), Z(2)^0, Z(2)^0 ] ]", {}, "words", 2), (PAIR, {}, "words", 2)):
            command, = improving.evidence_of(text, "mine", **more)
            self.assertEqual(command.fields["kind"], kind)
            self.assertEqual(len(command.fields.get("words", [])) or None, size)
        self.assertEqual(improving.evidence_of(GENERATORS, "mine", generator=True, distance=3, cites=["Hamming 1950"])[0].fields["cites"], ["Hamming 1950"])

    def test_what_is_refused(self):
        for text, more, fault in (("", {}, "there is no word; give words, one a line"), ("0102\n", {}, "line 1 is no word of digits 0 and 1: `0102`; give words"),
                                  (PAIR[:-4], {}, "line 2 begins a document that isn't complete"), (PAIR, {"cites": ["a"]}, "a submission says itself what it is"),
                                  (PAIR.replace("submit golay", "submit Golay"), {}, "Golay is no id")):
            with self.subTest(fault=fault), self.assertRaises(Refusal) as raised:
                improving.evidence_of(text, "mine", **more)
            self.assertTrue(str(raised.exception).startswith(fault), raised.exception)

    def test_taken_ids_are_changed_in_what_names_them_too(self):
        found, changed = improving.renamed(improving.evidence_of(BUILT, "mine"), {"golay", "golay-2"})
        self.assertEqual((changed, [command.words for command in found]), ({"golay": "golay-3"}, [["submit", "golay-3", "lines", "4"], ["submit", "other", "lines", "5"]]))
        self.assertEqual((found[1].fields["part"], found[0].remarks), ("golay-3", ("two words",)))

    def test_better_bounds_are_told_beside_published_ones(self):
        one = improving.Improved((17, 6), Bounds(256, 340), Bounds(258, 339))
        for there, said in (((257, 340), ("257, which it improves", "340, which it improves")), ((258, 330), ("258, which it equals", "330, which it does not reach")),
                            ((None, None), ("not known here", "not known here"))):
            with mock.patch.object(improving, "published_bounds", return_value=there):
                self.assertEqual(list(improving.compared(one)), [f"  A(17,6): lower bound 258 instead of 256 (published: {said[0]})",
                                                                 f"  A(17,6): upper bound 339 instead of 340 (published: {said[1]})"])

    def test_published_values_are_those_that_are_remembered(self):
        self.assertEqual(improving.published_bounds((17, 6)), (258, 340))
        self.assertEqual(improving.published_bounds((30, 6)), (None, None))

    def test_nothing_is_overwritten(self):
        with tempfile.NamedTemporaryFile() as file, self.assertRaisesRegex(Refusal, "is there already and stays as it is"):
            improving.write(file.name, improving.Told([(Command(1, ["submit", "a"], ""), "accepted a")], {}, {}))


@needs_program
class Improves(unittest.TestCase):
    def setUp(self):
        folder = tempfile.TemporaryDirectory()
        self.addCleanup(folder.cleanup)
        self.folder = Path(folder.name)

    def improves(self, text, *words):
        file = self.folder / "Mine.txt"
        file.write_text(text)
        return code_tables("improves", file, *words)

    def test_a_code_of_the_library_improves_nothing_there(self):
        out, said, status = code_tables("improves", TOP / "examples/conference9.txt")
        self.assertEqual((said, status), ("", 0))
        self.assertEqual(out, "the id conference9 is taken, so it is conference9-2 here\nconference9-2 is accepted: words of A(9,4), 20 words\nIt improves no entry of the table.\n")

    def test_a_document_of_the_library_is_recognised(self):
        text = (TOP / "examples/library/2-nonlinear.session").read_text()
        begin = text.index("submit conference9\n")
        out = self.improves(text[begin:text.index("\nend\n", begin) + 5])[0]
        self.assertIn("  its document is that of conference9, which the sessions have already\n", out)

    def test_what_is_better_and_what_to_do_next(self):
        new = self.folder / "new.session"
        out, said, status = self.improves((TOP / "examples/conference9.txt").read_text(), "--empty", "--cite", "N. J. A. Sloane and J. J. Seidel 1970", "--write", new)
        self.assertEqual((said, status), ("", 0))
        self.assertRegex(out, r"^mine is accepted: words of A\(9,4\), 20 words\nIt improves 18 entries of the table, and \d+ bounds over published values")
        self.assertIn("  A(9,4): lower bound 20 instead of 16 (published: ", out)
        self.assertIn(f"  the document: {new} has it\n  the citation: code-tables cite 9 4 --with {new}\n", out)
        self.assertNotIn("it cites nothing yet", out)
        self.assertEqual(code_tables("show", 9, 4, "--empty", "--with", new)[0], "20 <= A(9,4) <= 25\n")
        self.assertIn('cites = ["N. J. A. Sloane and J. J. Seidel 1970"]', new.read_text())
        again = self.improves("000\n111\n", "--write", new)
        self.assertEqual(again[2], 1)
        self.assertIn("is there already and stays as it is", again[1])

    def test_each_entry_that_is_better_is_told(self):
        out = self.improves((TOP / "examples/conference9.txt").read_text(), "--empty")[0]
        told = {line.split(":")[0].strip() for line in out.splitlines() if "lower bound" in line}
        self.assertEqual(len(told), 18)
        self.assertTrue({"A(8,3)", "A(9,4)", "A(18,4)", "A(30,10)"} <= told)

    def test_a_refusal_says_which_words_are_too_close(self):
        out, said, status = self.improves((TOP / "examples/guava.session").read_text())
        self.assertEqual((said, status), ("", 1))
        self.assertIn("claimed (A(11,6)) is refused close 0 1 5:\n", out)
        self.assertIn("    word 1  00011101001, at distance 5 and not 6\n", out)


if __name__ == "__main__":
    unittest.main()

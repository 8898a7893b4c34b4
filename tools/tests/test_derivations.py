"""Derivations are taken out of replies, for verify, without cutting."""

import tempfile
import unittest
from pathlib import Path

from support import call, needs_program, session

import check_derivation

ONE = "derivation\nline 1 lower 3 4 value 1 by L1\ndone\n"
# Evidence whose document has lines of other replies, and a dump that has it too.
TWO = ("derivation\nevidence a lines 7\nkind = 'words'\nn = 3\nd = 3\nwords = ['000', '111']\n# \n"
       "derivation\ndone\nline 1 lower 3 3 value 2 by L10 a\ndone\n")
REPLIES = ("A(5,3) = 4\nrefused taken\n" + ONE + "code 3 3 size 2\n000\n111\n# dump of 1 pieces\nsubmit a lines 3\nderivation\nline\ndone\n" + TWO
           + "a words 3 3 size 2\npieces 1\n")


class Derivations(unittest.TestCase):
    def test_each_by_its_number(self):
        for number, text in ((1, ONE), (2, TWO)):
            self.assertEqual(call("derivations", number, text=REPLIES), (text, "", 0))

    def test_the_only_one_without_a_number(self):
        self.assertEqual(call("derivations", text="A(3,4) = 1\n" + ONE), (ONE, "", 0))
        self.assertEqual(call("derivations", "--lines", text=TWO), ("line 1 lower 3 3 value 2 by L10 a\n", "", 0))

    def test_all_in_a_folder(self):
        with tempfile.TemporaryDirectory() as folder:
            self.assertEqual(call("derivations", "--folder", f"{folder}/new", text=REPLIES), ("2 derivations\n", "", 0))
            self.assertEqual([path.read_text() for path in sorted(Path(folder, "new").iterdir())], [ONE, TWO])

    def test_what_can_not_be_taken_is_refused(self):
        for words, text, fault in [((), REPLIES, "there are 2 derivations: give the number"), ((3,), REPLIES, "there is no derivation 3: they are 2"),
                                   ((0,), REPLIES, "there is no derivation 0"), ((), "A(3,4) = 1\n", "there is no derivation in these replies"),
                                   ((), ONE.removesuffix("done\n"), "isn't complete"), ((), TWO[:40], "isn't complete")]:
            with self.subTest(fault=fault):
                out, said, status = call("derivations", *words, text=text)
                self.assertEqual((out, status), ("", 1))
                self.assertIn("derivations: refused: ", said)
                self.assertIn(fault, said)

    @needs_program
    def test_they_are_verified(self):
        pair = "submit a\nkind = 'words'\nn = 10\nd = 9\nwords = ['0000000000', '1111111111']\nend\n"
        replies = session(pair + "dump\nexplain lower 10 9\nledger\nexplain upper 24 8 8\nlist 10 9\nexplain upper 10 9\n")
        for number in (1, 2, 3):
            text = call("derivations", number, text=replies)[0]
            self.assertEqual((session(text, "verify"), check_derivation.verdict(text.encode())), ("yes\n", "yes"))


if __name__ == "__main__":
    unittest.main()

"""The page says of the dual of an upper bound whether it is the least of its form, where `find` showed it."""

import tempfile
import unittest
from pathlib import Path
from types import SimpleNamespace

from support import DATA, FAKE, needs_program, run, session
from test_check_primal import PLAIN, WEIGHT

import least
import page
import table
from check_primal import replies
from code_tables import sessions

WIDE = PLAIN.replace("least\n# primal 1 6:112 8:30 10:112 16:1", "wide")


def dual(c, more=""):
    """A piece of a dual of (16,6)."""
    document = f'kind = "dual"\nn = 16\nd = 6\neven = true\nc = {c}\n{more}'
    return SimpleNamespace(id="k16", kind="dual", entry=(16, 6), size=None, parts=[], sources=[], remarks=[], cites=[], title="k16", document=document)


def held(piece, high, rule="U11 k16"):
    """What a program holds of (16,6) where its upper bound is by a rule."""
    derivation = table.Derivation(["k16"], ["line 1 upper 16 8 12 value 3 by V8", f"line 2 upper 16 6 value {high} by {rule}"])
    return table.Held(bounds={(16, 6): (128, high)}, pieces={"k16": piece}, derivations={("upper", (16, 6)): derivation})


class Least(unittest.TestCase):
    def test_what_is_said_of_a_dual(self):
        shown, wide = ({reply.entry: reply for reply in replies(text)} for text in (PLAIN, WIDE))
        least_dual, other, odd = dual([20, 20, 6, 4, 1]), dual([1]), dual([20, 20, 6, 4, 1], "m = 257\n")
        odd.kind = "odd"
        local = dual([1], "y = [[6, 1]]\n")
        local.kind = "jlocal"
        for what, found, words in [
                (held(least_dual, 256), shown, "The dual k16 is the least of its form: no dual of the entry without y has a smaller bound"),
                (held(other, 257), shown, "The dual k16 is not the least of its form: one has the bound 256."),
                (held(dual([1], "y = [[6, 1]]\n"), 255), shown, "Of the duals without such bounds 256 is the least bound"),
                (held(dual([20, 20, 6, 4, 1], "y = [[6, 0]]\n"), 256), shown, "is the least of its form"),
                (held(least_dual, 256), wide, "is not shown: the run of find ended as wide."),
                (held(odd, 256, "U12 k16"), shown, "The dual k16 excludes 257 words, since that is odd. Of the duals that exclude no number of "
                                                   "words and have no y 256 is the least bound, shown by a primal."),
                (held(local, 255, "V10 k16"), shown, "Of the duals without such bounds 256 is the least bound"),
                (held(odd, 256, "U12 k16"), wide, "The dual k16 excludes 257 words, since that is odd."),
                (held(least_dual, 256), {}, ""), (held(least_dual, 256, "U7 from 1"), shown, ""), (table.Held(bounds={(16, 6): (1, 256)}), shown, "")]:
            with self.subTest(words=words):
                told = least.said(what, (16, 6), found)
                self.assertIn(words, told)
                self.assertEqual(bool(words), bool(told))

    def test_the_page_has_it_below_the_derivation(self):
        shown = page.Page(held(dual([20, 20, 6, 4, 1]), 256), found={reply.entry: reply for reply in replies(PLAIN)})
        shown.entry((16, 6))
        text = "\n".join(shown.out)
        self.assertRegex(text, '(?s)<ol class="upper">.*</ol>\n<p class="least">The dual k16 is the least of its form')

    def test_a_page_takes_what_find_wrote(self):
        with tempfile.TemporaryDirectory() as folder:
            path = Path(folder) / "found"
            for text, said in [(PLAIN + WEIGHT + "none\n", ""), (PLAIN.replace("10:112", "10:113"), f"page: refused: {path}: A(16,6): the primal is not sound"),
                               ("A(16,6) = 256\n", "page: refused: line 1 begins no reply of the mode find")]:
                with self.subTest(said=said):
                    path.write_text(text)
                    out, fault, status = run("page.py", "--found", path, "--without-derivations", DATA / "page/small.session", env=FAKE)
                    self.assertTrue(fault.startswith(said) if said else status == 1 and "refused: " not in fault.replace("refused taken", ""))
                    self.assertEqual(bool(out), not said)

    def test_a_piece_is_not_named_by_the_numbers_of_a_primal(self):
        command, = sessions.commands("# bound 256 least\n# primal 1 6:112\n# primal numbers\nsubmit a lines 1\nkind = 'words'\n")
        self.assertEqual(sessions.without_primal(command).remarks, ("bound 256 least", "primal numbers"))

    @needs_program
    def test_a_dual_of_the_program_is_the_least(self):
        printed = session("22 10\n", "find")
        if "# primal" not in printed:
            self.skipTest("this program prints no primal")
        answered = table.held(printed, ["show 22 10", "explain upper 22 10"])
        if ("upper", (22, 10)) not in answered.derivations:
            self.skipTest("this program gives no derivations")
        self.assertIn("The dual find-22-10 is the least of its form", least.said(answered, (22, 10), {reply.entry: reply for reply in replies(printed)}))


if __name__ == "__main__":
    unittest.main()

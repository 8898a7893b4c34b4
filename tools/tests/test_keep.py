"""What stands at the end of a session is kept as a session, with its sources."""

import os
import tempfile
import unittest
from pathlib import Path

from support import FAKE_PROGRAM, TOP, call, needs_program, run, session

import table
from code_tables import sessions


class Keep(unittest.TestCase):
    def setUp(self):
        folder = tempfile.TemporaryDirectory()
        self.addCleanup(folder.cleanup)
        self.kept = Path(folder.name) / "kept.session"

    def keep(self, text):
        """Keeps what stands at the end of a session."""
        file = self.kept.with_name("a.session")
        file.write_text(text)
        return call("keep", file, self.kept)

    @needs_program
    def test_the_kept_session_leads_to_the_same_pieces(self):
        out, said, status = run("keep.py", "examples/golay.session", self.kept)
        self.assertEqual((said, status), ("", 0))
        text = (TOP / "examples/golay.session").read_text()
        self.assertEqual(out, session(text))
        self.assertEqual(session(self.kept.read_text() + "ledger\n").splitlines()[-2:], session(text + "\nledger\n").splitlines()[-2:])

    @needs_program
    def test_the_remarks_of_the_pieces_that_stand_are_kept(self):
        piece = "# found by {0}\n#\n# by hand\nsubmit {0}\nkind = 'words'\nn = 3\nd = 3\nwords = ['00{1}']\nend\n"
        text = "# the session\n\n" + piece.format("a", 0) + piece.format("b", 2) + piece.format("c", 1) + "withdraw a\n" + piece.format("a", 1) + "show 3 3"
        self.assertEqual(self.keep(text)[2], 1)
        kept = self.kept.read_text()
        remarks = {command.id: command.remarks for command in sessions.commands(kept)}
        self.assertEqual(remarks, {name: (f"found by {name}", "", "by hand") for name in ("c", "a")})
        self.keep(kept)
        self.assertEqual(self.kept.read_text(), kept)
        self.assertEqual(session(kept), "accepted c size 1\naccepted a size 1\n")

    @needs_program
    def test_citations_have_their_sources_after_a_session_was_kept(self):
        before, after = (self.kept.with_name(name) for name in ("before.session", "after.session"))
        before.write_text("# C. Ode, by hand\nsubmit a\nkind = 'words'\nn = 10\nd = 10\nwords = ['0000000000', '1111111111']\nend\n")
        call("keep", before, after)
        self.assertIn("C. Ode, by hand", after.read_text())
        pieces = table.held(after.read_text(), []).pieces
        self.assertEqual(pieces["a"].sources, ["C. Ode, by hand"])

    @needs_program
    def test_documents_are_kept_with_what_they_cite(self):
        piece = "# found by hand\nsubmit a\nformat = 2\nkind = 'words'\nn = 3\nd = 3\nwords = ['000']\ncites = ['C. Ode, 1990', 'D. Ode']\nend\n"
        self.assertEqual(self.keep(piece + "ledger\n")[0], "accepted a size 1\na words 3 3 size 1 cites 2\npieces 1\n")
        kept = self.kept.read_text()
        self.assertIn("\ncites = ['C. Ode, 1990', 'D. Ode']", kept)
        held = table.held(kept, []).pieces["a"]
        self.assertEqual((held.cites, held.remarks, held.sources), (["C. Ode, 1990", "D. Ode"], ["found by hand"], ["C. Ode, 1990", "D. Ode", "found by hand"]))

    @needs_program
    def test_a_dump_within_a_dump_is_no_end(self):
        out, _, status = self.keep("submit a\nkind = 'words'\nn = 3\nd = 3\nwords = ['000']\n# dump of 1 pieces\nend\ndump\nshow 3 3")
        self.assertEqual((status, out.splitlines()[-1]), (0, "A(3,3) = 2"))
        self.assertEqual(session(self.kept.read_text()), "accepted a size 1\n")

    @needs_program
    def test_refusals_are_kept_out_and_told_by_the_status(self):
        _, _, status = run("keep.py", "examples/nordstrom-robinson.session", self.kept)
        self.assertEqual(status, 1)
        self.assertEqual(session(self.kept.read_text()), "accepted nordstrom-robinson size 256\n")

    def test_a_cut_session_keeps_nothing(self):
        self.kept.write_text("as before")
        out, said, status = self.keep("submit a\nkind")
        self.assertEqual((status, out), (125, ""))
        self.assertIn("the session ends within a document", said)
        self.assertEqual(self.kept.read_text(), "as before")

    def test_wrong_words_are_refused(self):
        self.assertEqual(run("keep.py")[2], 2)
        self.assertIn("no/such can't be read", call("keep", "no/such")[1])

    def test_a_program_that_fails_keeps_nothing(self):
        for program in ("false", "/no/such/program", "cat", FAKE_PROGRAM):
            _, said, status = run("keep.py", "examples/six-words.session", self.kept, env=os.environ | {"CODE_TABLES": str(program)})
            self.assertEqual((self.kept.exists(), status), (False, 125), said)


if __name__ == "__main__":
    unittest.main()

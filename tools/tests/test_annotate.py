"""Replies stand beside their commands, refusals with what they mean there."""

import json
import re
import tempfile
import tomllib
import unittest
from pathlib import Path

from support import DATA, TOOLS, TOP, call, data, needs_program, run, session
from test_check_primal import ONES, PLAIN

import annotate
from code_tables import sessions
from code_tables.fitting import Standing
from code_tables.sessions import Command


# A submission that cites two texts.
CITED = "submit pair\nformat = 2\nkind = 'words'\nn = 4\nd = 4\nwords = ['0000', '1111']\ncites = ['a', 'b']\nend\n"


class Annotate(unittest.TestCase):
    def test_each_reply_stands_beside_its_command(self):
        folder = DATA / "annotate"
        out, said, status = run("annotate.py", "--refusals", folder / "refusals.json", folder / "many.session", text=data("annotate/many.replies"))
        self.assertEqual((said, status), ("", 1))
        self.assertEqual(out, data("annotate/many.annotated"))

    def test_refusals_alone(self):
        out, _, _ = run("annotate.py", "--refused", DATA / "annotate/many.session", text=data("annotate/many.replies"))
        heads = [line for line in out.splitlines() if not line.startswith(" ")]
        self.assertEqual(len(heads), 15)
        self.assertTrue(all("refused" in line for line in heads))

    def test_each_refusal_has_its_sentence(self):
        known = annotate.sentences()
        for text in ["cut", "command", "entry", "taken", "full pieces 1000", "full words 1000001", "bytes 4194305", "toml", "kind", "field n",
                     "unknown", "digits 0", "size 0", "weight 1", "work 33554432", "repeated 0 1", "close 0 1 2", "nosuch a", "part a",
                     "short 4 5", "few 1 2", "empty", "inuse a"]:
            with self.subTest(text=text):
                self.assertTrue(annotate.meanings(Command(1, ["submit", "a"]), f"refused {text}", known))

    def test_the_sentences_are_those_of_the_document(self):
        section = (TOP / "docs/FORMATS.md").read_text().split("\n## Refusals\n")[1].split("\n## ")[0]
        rows = [{"refused": text, "where": where} for text, where in re.findall(r"^\| `refused ([^`]*)` \| (.*) \|$", section, re.M)]
        self.assertEqual(rows, json.loads((TOOLS / "refusals.json").read_text()))

    def test_replies_to_another_session_are_refused(self):
        out, said, status = run("annotate.py", DATA / "annotate/many.session", text=data("annotate/many.replies") + "accepted more size 1\n")
        self.assertEqual(status, 1)
        self.assertIn("annotate: refused: line 50 of the replies answers no command", said)

    def test_a_session_that_is_not_there_is_refused(self):
        self.assertIn("annotate: refused: no/such can't be read", run("annotate.py", "no/such")[1])

    def test_missing_replies_are_said(self):
        out, said, status = run("annotate.py", DATA / "annotate/many.session")
        self.assertEqual(status, 1)
        self.assertIn("annotate: refused: 21 replies are missing", said)
        self.assertIn("2: submit a: no reply: the program ended before it\n", out)

    def annotated(self, session, replies):
        """What is said of replies to a session."""
        with tempfile.TemporaryDirectory() as folder:
            path = Path(folder) / "a.session"
            path.write_bytes(session.encode())
            return call("annotate", path, text=replies)

    def test_a_refusal_has_no_sentence_of_find(self):
        for session, reply in (("show 31 3\n", "refused entry"), ("nonsense\n", "refused command")):
            self.assertNotIn("no line is a comment here", self.annotated(session, reply)[0])
            self.assertNotIn("the numbers are those of no entry", self.annotated(session, reply)[0])

    def test_replies_that_can_not_be_those_to_the_session_are_told(self):
        pair = "submit pair\nkind = 'words'\nn = 4\nd = 4\nwords = ['0000', '1111']\nend\n"
        odd = "submit o9\nkind = 'odd'\nn = 9\nd = 4\neven = true\nm = 21\nc = [3, 1, 1]\ny = [[8, 16]]\nend\n"
        for session, replies, line, fault in [
                (odd, "accepted o9 size 20", 1, "a dual has no size"), (odd + "ledger\n", "accepted o9\npieces 0", 2, "1 pieces stand: o9"),
                (pair, "accepted other size 2", 1, "the submission is pair"), (pair, "accepted pair size 3", 1, "the document has 2 words"),
                (pair, "accepted pair", 1, "a dual has no size"), (pair, "A(4,4) = 2", 1, "a submission is accepted or refused"),
                (pair, "refused close 0 2 3", 1, "the document has 2 words"), (pair, "refused nosuch a", 1, "the document names no a"),
                (pair, "refused taken", 1, "no piece has the id pair"),
                (pair + pair, "accepted pair size 2\naccepted pair size 2", 2, "a piece of this id stands"),
                (pair + "ledger\n", "accepted pair size 2\npieces 0", 2, "1 pieces stand: pair"),
                (pair + "dump\n", "accepted pair size 2\n# dump of 0 pieces", 2, "1 pieces stand"),
                (pair + "ledger\n", "accepted pair size 2\npair words 4 4 size 2 cites 1\npieces 1", 2, "pair cites 0 texts"),
                (CITED + "ledger\n", "accepted pair size 2\npair words 4 4 size 2\npieces 1", 2, "pair cites 2 texts"),
                (CITED + "ledger\n", "accepted pair size 2\npair words 4 4 size 2 cites 0\npieces 1", 2, "the line of a piece has to stand here"),
                ("show 16 6\n", "A(16,8) = 32", 1, "bounds of A(16,6)"), ("show 16 6\n", "accepted a size 1", 1, "bounds of A(16,6)"),
                ("table 30 29\n", "A(29,30,29) = 1\nA(30,30,28) = 1", 1, "bounds of A(30,30,29)"),
                ("list 5 3\n", "code 5 3 size 1\n0000", 1, "1 words of length 5"), ("list 5 3\n", "code 6 3 size 1\n000000", 1, "a code of A(5,3)"),
                ("list 5 3\n", "nothing", 1, "a code of A(5,3)"), ("list 5 3\n", "", 1, "a code of A(5,3)"),
                ("withdraw a\n", "withdrawn b", 1, "withdraws a"), ("withdraw a\n", "withdrawn a", 1, "no such piece stands"),
                (pair + "withdraw pair all\n", "accepted pair size 2\nwithdrawn pair", 2, "takes 1 pieces out"),
                (pair + "withdraw pair all\n", "accepted pair size 2\nwithdrawn pair count 2", 2, "takes 1 pieces out"),
                ("nonsense\n", "A(16,8) = 32", 1, "can only be refused"), ("show 16 6\n", "refused toml", 1, "only a submission")]:
            with self.subTest(session=session, replies=replies):
                out, said, status = self.annotated(session, replies + "\n")
                self.assertEqual(status, 1)
                self.assertIn(f"annotate: refused: line {line} of the replies", said)
                self.assertIn(fault, said)

    def test_documents_that_cite_are_explained(self):
        for old, new, refusal, said in [("format = 2", "format = 3", "field format", "the whole number 1 or 2, and 1 where it is left out; the document has 3"),
                                        ("'b'", "''", "field cites", "cites is a list of at most 16 texts, each of 1 to 200 bytes, in printable ASCII alone; the document has ['a', '']"),
                                        ("format = 2\n", "", "unknown", "the document has the key cites, and no `format = 2`")]:
            with self.subTest(refusal=refusal):
                self.assertIn(said, self.annotated(CITED.replace(old, new), f"refused {refusal}\n")[0])
        self.assertNotIn("no `format = 2`", self.annotated(CITED.replace("cites", "cite"), "refused unknown\n")[0])
        whole = self.annotated(CITED + "ledger\n", "accepted pair size 2\npair words 4 4 size 2 cites 2\npieces 1\n")
        self.assertEqual(whole[1:], ("", 0))

    def test_an_odd_number_of_words_is_explained(self):
        odd = "submit o9\nkind = 'odd'\nn = 9\nd = 4\neven = true\nm = 20\nc = [3, 1, 1]\ny = [[8, 16]]\nend\n"
        for document, told in (odd, "the document has 20"), (odd.replace("m = 20\n", ""), "it is missing"):
            self.assertIn(f"m is an odd whole number from 3 to 1048575; {told}", self.annotated(document, "refused field m\n")[0])
        self.assertEqual(self.annotated(odd.replace("20", "21") + "ledger\n", "accepted o9\no9 odd 9 4\npieces 1\n")[1:], ("", 0))

    def test_replies_that_the_program_gives_fit(self):
        tried = 0
        for name in ("rows.toml", "made.toml"):
            table = tomllib.loads((TOP / "crates/ct_rows/data" / name).read_text())
            parts = {part["name"]: part for part in table["part"]}
            for row in table["row"]:
                if row.get("words", ["session"]) != ["session"] or row["status"] not in ("Done", "Refused"):
                    continue
                pieces = [parts[part] for part in row.get("after", [])] + [row]
                text, output = ("".join(piece.get(key, "") for piece in pieces) for key in ("input", "output"))
                if "words of the greatest size" in row.get("after", []):
                    continue
                tried += 1
                with self.subTest(row=row["name"]):
                    standing = Standing()
                    for command, reply in sessions.replies(sessions.commands(text), output):
                        self.assertTrue(reply)
                        self.assertIsNone(standing.fault(command, reply), (command.words, reply[0]))
        self.assertGreater(tried, 500)

    def test_below_a_dual_that_was_found_stands_whether_it_is_the_least(self):
        for text, words in [
                (PLAIN, "the dual's bound is 256; the primal above it is sound, so no dual of the form has a smaller bound"),
                (ONES, "the dual's bound is 16; that it is the least of its form is not shown: the run of find ended as turns 0"),
                (PLAIN.replace("10:112", "10:113"), "what find is said to have written above it is not so: the primal is not sound: for k = 1"),
                (PLAIN.replace("least", "wide"), "not so: the run ended as wide, and a primal is printed"),
                (PLAIN.replace("n = 16", "n = 'x'"), "not so: the dual is refused: field n"), (PLAIN.replace("n = 16", "N = 16"), "not so: the dual is refused: field n"),
                (PLAIN.replace("# bound", "# no bound"), None), (PLAIN.replace("# primal", "\n# primal"), None)]:
            with self.subTest(text=text):
                name = text.split("submit ")[1].split(" ")[0]
                out, said, status = self.annotated(text, f"accepted {name}\n")
                self.assertEqual((said, status, out.count("\n")), ("", 0, 1 + (words is not None)))
                self.assertIn(words or "accepted", out)
        self.assertNotIn("bound", self.annotated(PLAIN, "refused taken\n")[0])

    def test_a_code_without_words_is_told(self):
        for text in ("kind = 'words'\nwords = []", "kind = 'cosets'\nbasis = []\nrepresentatives = []", "kind = 'partition'\nd1 = 1\nclasses = [[]]", ""):
            for refusal in ("size 0", "close 0 1 2", "repeated 0 1", "weight 0", "digits 0", "few 0 1"):
                with self.subTest(text=text, refusal=refusal):
                    out, said, status = self.annotated(f"submit a\nn = 4\nd = 3\n{text}\nend\n", f"refused {refusal}\n")
                    self.assertEqual(status, 1)
                    self.assertNotIn("Traceback", said)

    def test_line_ends_of_windows_are_explained(self):
        session = "submit pair\r\nkind = 'words'\r\nn = 4\r\nd = 4\r\nwords = ['0000', '1111']\r\nend\r\n"
        out, _, status = self.annotated(session, "refused toml\n")
        self.assertEqual(status, 1)
        self.assertIn("the session has the line ends of Windows", out)
        self.assertNotIn("Windows", self.annotated(session.replace("\r", "").replace("d = 4", "d = "), "refused toml\n")[0])

    @needs_program
    def test_line_ends_of_windows_are_refused_so(self):
        self.assertEqual(session("submit a\r\nkind = 'words'\r\nn = 4\r\nd = 4\r\nwords = ['0000', '1111']\r\nend\r\n"), "refused toml\n")

    @needs_program
    def test_the_stored_replies_are_those_of_the_program(self):
        self.assertEqual(session(data("annotate/many.session")), data("annotate/many.replies"))


if __name__ == "__main__":
    unittest.main()

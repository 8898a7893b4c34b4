"""Documents cite what the tools are told, and lines of `ledger` tell how much."""

import doctest
import tomllib
import unittest

from support import CITE_FAULTS

import table
from code_tables import Refusal, cites, sessions
from code_tables.sessions import Command, Piece


class Cites(unittest.TestCase):
    def test_its_examples(self):
        self.assertEqual(doctest.testmod(cites).failed, 0)

    def test_a_document_cites_texts_to_the_letter(self):
        for texts in (["a"], ['"', "\\", '\\"'], [" "], ["~" * 200] * 16, ["'''", '"""', "# no remark", "end"], ["".join(map(chr, range(32, 127)))]):
            with self.subTest(texts=texts):
                document = cites.citing("kind = 'words'\nn = 4", texts)
                self.assertEqual(tomllib.loads(document), {"format": 2, "cites": texts, "kind": "words", "n": 4})
                self.assertNotIn("end", document.split("\n"))

    def test_what_no_document_cites_is_refused(self):
        for texts, fault in [*CITE_FAULTS, ("Golay 1949", "cites are a list of texts")]:
            with self.subTest(fault=fault), self.assertRaises(Refusal) as raised:
                cites.citing("kind = 'words'", texts)
            self.assertTrue(str(raised.exception).startswith(fault))

    def test_a_document_of_format_1_cites_nothing(self):
        for fields, texts in [({"cites": ["a"]}, []), ({"format": 1, "cites": ["a"]}, []), ({"format": 2, "cites": ["a"]}, ["a"]), ({"format": 2}, []), ({}, [])]:
            self.assertEqual(cites.cites_of(fields), texts)

    def test_lines_of_pieces(self):
        for line, piece in [("a words 4 4 2 size 2 cites 16", Piece("a", "words", (4, 4, 2), 2, 16)), ("b dual 13 6", Piece("b", "dual", (13, 6), None)),
                            ("b dual 13 6 cites 1", Piece("b", "dual", (13, 6), None, 1)), ("c cosets 24 8 size 4096", Piece("c", "cosets", (24, 8), 4096))]:
            self.assertEqual(sessions.piece_of(line), piece)
        for line in ("a words 4 4 size 2 cites 0", "a words 4 4 cites 1 size 2", "a words 4", "a words 4 4 4 4 size 2", "pieces 1", "a words 4 4 size 2 cites 1 "):
            with self.assertRaises(Refusal):
                sessions.piece_of(line)

    def test_a_piece_without_remarks_has_what_it_cites_as_title(self):
        document = "format = 2\ncites = ['M. J. E. Golay, 1949', 'b']\nkind = 'words'"
        for remarks, title in [((), "M. J. E. Golay, 1949"), (("Golay's code: here.",), "Golay's code")]:
            piece = table.piece_of("a words 4 4 size 1 cites 2", {"a": Command(1, ["submit", "a"], document, remarks)})
            self.assertEqual((piece.title, piece.sources, piece.remarks), (title, ["M. J. E. Golay, 1949", "b", *remarks], list(remarks)))
        self.assertEqual(table.piece_of("a words 4 4 size 1", {"a": Command(1, ["submit", "a"], "kind = 'words'")}).title, "a")

    def test_evidence_is_told_from_texts_of_documents(self):
        found = table.Held()
        reply = ["derivation", "evidence a lines 3", 'cites = ["""\\', "evidence b lines 2", '"""]', "evidence c lines 1", "n = 1", "line 1 lower 4 4 value 1 by L1", "done"]
        table.take_explanation(found, Command(1, ["explain", "lower", "4", "4"]), reply)
        self.assertEqual(found.derivations["lower", (4, 4)], table.Derivation(["a", "c"], ["line 1 lower 4 4 value 1 by L1"]))


if __name__ == "__main__":
    unittest.main()

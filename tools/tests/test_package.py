"""The package for Python: its examples, its session, and that it is installed without any other."""

import ast
import doctest
import importlib
import pkgutil
import sys
import tomllib
import unittest

from support import TOOLS, TOP, needs_program

import code_tables
from code_tables import Bounds, Refusal, Refused, Session, bounds, explain, submit, verify

MODULES = [f"code_tables.{module.name}" for module in pkgutil.iter_modules(code_tables.__path__)]
SIX = ["1111111111", "1111000000", "1000111000", "0100100110", "0010010101", "0001001011"]


class Sources(unittest.TestCase):
    def test_it_stands_on_the_standard_library_alone(self):
        self.assertEqual(tomllib.loads((TOOLS / "pyproject.toml").read_text())["project"]["dependencies"], [])
        for file in (TOOLS / "code_tables").glob("*.py"):
            for node in ast.walk(ast.parse(file.read_text())):
                names = [alias.name for alias in node.names] if isinstance(node, ast.Import) else []
                names += [node.module] if isinstance(node, ast.ImportFrom) and not node.level else []
                self.assertTrue({name.split(".")[0] for name in names} <= sys.stdlib_module_names, file.name)

    def test_each_function_is_typed_and_described(self):
        for file in (TOOLS / "code_tables").glob("*.py"):
            for node in ast.walk(ast.parse(file.read_text())):
                if isinstance(node, ast.FunctionDef):
                    with self.subTest(file=file.name, function=node.name):
                        arguments = [one for one in node.args.args + node.args.kwonlyargs if one.arg != "self"]
                        self.assertTrue(node.returns is not None and all(one.annotation is not None for one in arguments))
                        self.assertTrue(ast.get_docstring(node) or node.name.startswith("_"))

    def test_the_checker_shares_nothing_with_it(self):
        self.assertNotIn("code_tables", [name for node in ast.walk(ast.parse((TOOLS / "check_derivation.py").read_text()))
                                         if isinstance(node, (ast.Import, ast.ImportFrom)) for name in [getattr(node, "module", None) or node.names[0].name]])


@needs_program
class Package(unittest.TestCase):
    def setUp(self):
        self.session = Session()
        self.addCleanup(self.session.close)

    def test_its_examples(self):
        for name in ["code_tables", *MODULES]:
            with self.subTest(module=name):
                self.assertEqual(doctest.testmod(importlib.import_module(name)).failed, 0)

    def test_evidence_betters_bounds(self):
        self.assertEqual(self.session.bounds(10, 6).lower, 4)
        self.assertEqual(self.session.submit("six", SIX), 6)
        self.assertEqual(self.session.bounds(10, 6), Bounds(6, 6))
        self.assertTrue(self.session.bounds(10, 6).is_exact)
        self.assertEqual(self.session.words(10, 6), sorted(SIX))
        self.assertEqual([(piece.id, piece.kind, piece.entry, piece.size) for piece in self.session.pieces()], [("six", "words", (10, 6), 6)])
        self.session.withdraw("six")
        self.assertEqual((self.session.pieces(), self.session.bounds(10, 6).lower), ([], 4))

    def test_words_may_be_sequences_of_digits_and_evidence_a_document(self):
        self.assertEqual(self.session.submit("lists", [[1, 1, 0, 0], (0, 0, 1, 1)]), 2)
        self.assertEqual(self.session.submit("stated", ["0000", "1111"], d=3), 2)
        self.assertIsNone(self.session.submit("dual", "kind = 'dual'\nn = 16\nd = 6\neven = true\nc = [560, 350, 168, 79, 28, 5]\n"))
        self.assertEqual(self.session.pieces()[-1].size, None)

    def test_words_are_handed_in_with_what_they_cite(self):
        self.session.submit("six", SIX, cites=["MacWilliams and Sloane, Appendix A", 'a "second"'])
        self.session.submit("pair", 'format = 2\nkind = "words"\nn = 3\nd = 3\nwords = ["000", "111"]\ncites = ["by hand"]')
        self.session.submit("none", ["0000", "1111"])
        self.assertEqual([(piece.id, piece.size, piece.cites) for piece in self.session.pieces()], [("six", 6, 2), ("pair", 2, 1), ("none", 2, 0)])
        for evidence, cites, fault in ((SIX, [""], "cite 1 is empty"), (SIX, "Golay 1949", "cites are a list of texts"), ("kind = 'words'", ["a"], "a document says itself")):
            with self.assertRaisesRegex(Refusal, fault):
                self.session.submit("more", evidence, cites=cites)

    def test_a_refusal_is_an_error_with_its_text(self):
        for evidence, fault in (("kind = 'words'\nn = 4\nd = 4\nwords = ['0000', '0011']", "close 0 1 2"), ("", "kind"), ("end\n=", "toml")):
            with self.assertRaises(Refused) as raised:
                self.session.submit("a", evidence)
            self.assertEqual(raised.exception.reply, fault)
        with self.assertRaises(Refused):
            self.session.bounds(31, 3)
        self.assertEqual(self.session.bounds(5, 3), Bounds(4, 4))

    def test_no_text_writes_another_command(self):
        for command in ("show 5 3\nshow 6 3", "submit a", "", "# a remark"):
            with self.assertRaises(Refusal):
                self.session.ask(command)
        with self.assertRaises(Refusal):
            self.session.submit("a\nb", SIX)
        self.assertEqual(len(self.session.table(4)), 30)
        self.assertEqual(len(self.session.table(4, 20)), 11)

    def test_derivations_are_verified(self):
        self.session.submit("six", SIX)
        derivation = self.session.explain("lower", 10, 6)
        self.assertEqual((verify(derivation), verify(derivation.replace("value 6", "value 7"))), ("yes", "no 7 value 7 6"))

    def test_a_dump_leads_to_the_same_pieces(self):
        self.session.submit("six", SIX)
        with Session() as other:
            other.run(self.session.dump())
            self.assertEqual(other.pieces(), self.session.pieces())

    def test_sessions_of_files_come_first_and_tell_what_is_refused(self):
        with Session(str(TOP / "examples/nordstrom-robinson.session")) as held:
            self.assertEqual(held.bounds(16, 6), Bounds(256, 256))
            self.assertEqual(held.refused, [("submit closer", "close 0 32 6")])

    def test_a_session_that_has_ended_says_so(self):
        self.assertEqual(self.session.close(), 0)
        with self.assertRaises(Refusal):
            self.session.bounds(5, 3)

    def test_the_functions_share_one_session(self):
        submit("shared", SIX, empty=True)
        self.assertEqual((bounds(10, 6, empty=True), verify(explain("lower", 10, 6, empty=True))), (Bounds(6, 6), "yes"))

    def test_they_answer_over_the_library_unless_the_empty_table_is_asked_for(self):
        self.assertEqual((bounds(17, 6), bounds(17, 6, empty=True)), (Bounds(256, 340), Bounds(48, 428)))
        self.assertIn("by L10 ", explain("lower", 16, 6))
        self.assertNotIn("by L10 ", explain("lower", 16, 6, empty=True))


if __name__ == "__main__":
    unittest.main()

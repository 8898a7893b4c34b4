"""The library is accepted, and reaches what examples/library/README.md says, which compares it with what is remembered as published."""

import re
import unittest
from functools import cache

from support import TOP, needs_program

import check_derivation
import table
import table_data
from code_tables import published, sessions
from code_tables.cites import check_cites, cites_of

FILES = sorted((TOP / "examples/library").glob("*.session"))
TEXT = (TOP / "examples/library/README.md").read_text()


def exact(found, length):
    """How many entries of a length, 2 or 3 numbers, have equal bounds."""
    return sum(low == high for entry, (low, high) in found.bounds.items() if len(entry) == length)


def told(row):
    """The two numbers of a row of the document."""
    return tuple(map(int, re.search(re.escape(f"| {row} |") + r" (\d+) \| (\d+) \|", TEXT).groups()))


@cache
def first(count):
    """What the program holds over so many of the sessions."""
    return table.held(table.read_sessions(FILES[:count]), table.ask_all())


def whole():
    """What it holds over the whole library."""
    return first(len(FILES))


class Library(unittest.TestCase):
    def test_each_submission_says_what_it_is(self):
        for file in FILES:
            for command in sessions.commands(file.read_text()):
                if command.words[0] == "submit":
                    self.assertTrue(command.remarks, f"{file.name}: {command.id}")

    def test_what_a_remark_names_is_cited(self):
        for file in FILES:
            for command in sessions.commands(file.read_text()):
                remark, cited = " ".join(command.remarks), "\n".join(cites_of(command.fields))
                named = re.findall(r"\b[A-Z\u00d6][\w-]+ \(?((?:19|20)\d\d)(?=[);:,.]|$| in | as )", remark) if command.words[0] == "submit" else []
                named += re.findall(r"MacWilliams and Sloane, (ch\. \d+(?:, sec\. \d+)?)", remark)
                with self.subTest(piece=command.id, remark=remark):
                    self.assertEqual([name for name in named if name not in cited], [])

    def test_what_a_session_names_above_all_is_cited(self):
        for number, kinds, years in [(4, ("words",), ["1990"]), (6, ("product",), ["1989", "1990"]), (7, ("dual", "jdual"), ["1973"]),
                                     (8, ("odd",), ["1973", "1978"]), (9, ("jlocal",), ["1972", "1973", "2000"])]:
            for command in sessions.commands(FILES[number - 1].read_text()):
                if command.fields.get("kind") in kinds:
                    cited = "\n".join(cites_of(command.fields))
                    self.assertEqual([year for year in years if f"({year})" not in cited], [], command.id)

    def test_cites_are_those_of_documents(self):
        for file in FILES:
            for command in sessions.commands(file.read_text()):
                texts = cites_of(command.fields)
                check_cites(texts)
                self.assertEqual(command.fields.get("format", 1), 2 if texts else 1, command.id)
                self.assertEqual(command.fields.get("cites", []), texts)

    def test_a_work_is_cited_in_one_way(self):
        works = {}
        for file in FILES:
            for command in sessions.commands(file.read_text()):
                for text in cites_of(command.fields):
                    title = re.sub(r", ch\. .*", "", text)
                    works.setdefault((title[:24], re.findall(r"\d{4}", title)[0]), set()).add(title)
        self.assertEqual([titles for titles in works.values() if len(titles) > 1], [])

    def test_the_document_counts_the_pieces_that_cite(self):
        found = sum(bool(cites_of(command.fields)) for file in FILES for command in sessions.commands(file.read_text()))
        self.assertIn(f"{found} of the pieces cite", " ".join(TEXT.split()))

    @needs_program
    def test_the_program_keeps_what_is_cited(self):
        cited = {command.id: cites_of(command.fields) for file in FILES for command in sessions.commands(file.read_text()) if command.words[0] == "submit"}
        self.assertEqual({piece.id: piece.cites for piece in whole().pieces.values()}, cited)

    def test_the_document_counts_the_pieces(self):
        counts = {file.name: sum(command.words[0] == "submit" for command in sessions.commands(file.read_text())) for file in FILES}
        told_of = {name: 15 if number == "fifteen" else int(number) for name, number in re.findall(r"^\| `([^`]+)` \| (\w+) ", TEXT, re.M)}
        self.assertEqual(told_of, counts)
        self.assertIn(f"`examples/library/` has {sum(counts.values())} pieces", (TOP / "README.md").read_text())

    def test_the_document_counts_the_entries(self):
        self.assertIn(f"of all {len(table.entries()):,} entries", " ".join(TEXT.split()))
        plain = sum(len(entry) == 2 for entry in table.entries())
        self.assertIn(f"| A(n,d), of {plain} | A(n,d,w), of {len(table.entries()) - plain} |", TEXT)

    @needs_program
    def test_all_are_accepted_and_reach_what_is_said(self):
        self.assertEqual(len(FILES), 9)
        for count, row in [(6, "the six sessions of codes"), (7, "these and the seventh, of duals"), (8, "these and the eighth, of odd duals"),
                           (9, "all nine sessions")]:
            found = first(count)
            self.assertEqual(found.refused, [])
            self.assertEqual((len(found.bounds), exact(found, 2), exact(found, 3)), (len(table.entries()), *told(row)))

    @needs_program
    def test_the_document_counts_what_duals_improve(self):
        text = " ".join(TEXT.split())
        self.assertIn(f"The 25 duals of the eighth session improve {sum(bounds != first(7).bounds[entry] for entry, bounds in first(8).bounds.items())} entries", text)
        better = [entry for entry, bounds in whole().bounds.items() if bounds != first(8).bounds[entry]]
        least = [entry for entry in better if entry == published.same(*entry)]
        self.assertIn(f"improve {len(least)} entries with w at most n/2, and {len(better) - len(least)} more by A(n,d,w) = A(n,d,n-w)", text)
        for name, value in re.findall(r"A\(([\d,]+)\) = (\d+)", TEXT):
            entry = tuple(map(int, name.split(",")))
            self.assertEqual(whole().bounds[entry], (int(value), int(value)), entry)

    @needs_program
    def test_each_dual_bounds_what_is_said_above_it(self):
        rules = {"dual": "U11", "odd": "U12", "jdual": "V9", "jlocal": "V10"}
        for piece in whole().pieces.values():
            if piece.kind in rules:
                read = check_derivation.Piece(piece.document.encode())
                read.check({})
                premises, formula = check_derivation.rule_at({piece.id: read}, rules[piece.kind], piece.entry, [piece.id])
                bound = formula(*(whole().bounds[premise][1] for premise in premises))
                self.assertRegex(piece.title, rf"^{re.escape(sessions.name_of(piece.entry))} is at most {bound}\b", piece.id)

    @needs_program
    def test_the_document_compares_each_open_entry(self):
        opened = table_data.opened(whole())
        for size in (2, 3):
            self.assertIn(table_data.comparison(whole(), size), TEXT)
        self.assertEqual([entry for entry in opened if len(entry) == 2 and not published.value(*entry)], [])
        known = [bool(published.value(*entry)) for entry in opened if len(entry) == 3]
        self.assertIn(f"Of the {len(known)} open A(n,d,w) with w at most n/2, to length {published.LONGEST}, a published value is remembered at these {sum(known)}", " ".join(TEXT.split()))

    def test_no_sentence_calls_two_values_equal(self):
        self.assertNotRegex(re.sub(r"both bounds are equal", "", TEXT), r"\bequal\b")

    @needs_program
    def test_the_products_of_the_examples_are_the_best_of_the_library(self):
        found = table.held(table.read_sessions([TOP / "examples/partitions.session"]), [])
        products = [piece for piece in found.pieces.values() if piece.kind == "product"]
        self.assertEqual([(piece.entry, piece.size) for piece in products], [((8, 4), 16), ((8, 4, 4), 14)])
        for piece in products:
            self.assertEqual(whole().bounds[piece.entry][0], piece.size)

    @needs_program
    def test_each_code_of_constant_weight_that_was_searched_for_is_needed(self):
        searched = table.read_sessions(sorted((TOP / "examples/library").glob("[56]-*.session")))
        pieces = [whole().pieces[command.id] for command in sessions.commands(searched)]
        self.assertEqual({piece.kind for piece in pieces}, {"words", "partition", "product"})
        for piece in pieces:
            if piece.kind != "partition":
                self.assertEqual(whole().bounds[piece.entry][0], piece.size, piece.id)
        parts = {name for piece in pieces for name in piece.parts}
        self.assertEqual({piece.id for piece in pieces if piece.kind == "partition"}, parts)


if __name__ == "__main__":
    unittest.main()

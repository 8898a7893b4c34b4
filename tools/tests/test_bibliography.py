"""One bibliography has each work that rules, documents of evidence and published values name."""

import doctest
import json
import re
import unittest

from support import TOOLS, TOP
from test_cite import entries

from code_tables import bibliography, cites, published, sessions

# A work as a text names it: names of authors and a year.
NAMED = r"(?:[A-ZÖ][\w-]+(?:, | and ))*[A-ZÖ][\w-]+ (?:1[89]|20)\d\d"


class Bibliography(unittest.TestCase):
    def test_the_examples(self):
        for module in bibliography, cites:
            self.assertEqual(doctest.testmod(module).failed, 0)

    def test_each_work_that_a_rule_names_is_there(self):
        for row in json.loads((TOOLS / "rules.json").read_text()):
            names = {work.name for work in bibliography.named(row["source"])}
            self.assertLessEqual(set(re.findall(NAMED, row["source"])), names, row["source"])
            self.assertNotIn("the same", row["source"].split("; ")[-1])

    def test_each_work_that_a_document_names_is_there(self):
        for path in ("README.md", "docs/RULES.md", "docs/THEOREM.md", "docs/LAWS.md", "examples/library/README.md"):
            for name in re.findall(NAMED, " ".join((TOP / path).read_text().split())):
                self.assertIn(name, bibliography.works(), path)

    def test_each_source_of_a_published_value_is_there(self):
        for told in published.values().values():
            if told.source:
                self.assertIn(told.source, bibliography.works())
            self.assertLessEqual(set(re.findall(NAMED, told.note or "")), set(bibliography.works()))

    def test_what_the_library_cites_is_a_work_of_it(self):
        for file in sorted((TOP / "examples").rglob("*.session")):
            for command in sessions.commands(file.read_text()):
                for text in cites.cites_of(command.fields):
                    work = bibliography.cited(text)
                    self.assertIsNotNone(work, text)
                    before, after = text.split(work.cite())
                    self.assertRegex(f"{before}|{after}", r"^(A code as large: )?\|(, (ch\. \d+(, sec\. \d+)?|the code .*))?$", text)

    def test_each_work_has_one_key_and_an_entry_that_is_read(self):
        found = entries("\n".join(work.bibtex() for work in bibliography.works().values()))
        self.assertEqual(len(found), len(bibliography.works()))
        for (kind, key, fields), work in zip(found, bibliography.works().values()):
            self.assertEqual((key, fields["year"]), (work.key, str(work.year)))
            self.assertIn("author", fields)
            self.assertTrue("title" in fields or "note" in fields)
            self.assertLessEqual({"article": {"journal", "volume"}, "book": {"publisher"}}.get(kind, set()), set(fields))

    def test_what_a_document_can_cite(self):
        for text, plain in [("P. R. J. Östergård", "P. R. J. Ostergard"), ("Łukasz–Müller\u00a0“x”", 'Lukasz-Muller "x"'), ("tab\there", "tab here"), ("plain", "plain")]:
            self.assertEqual(cites.ascii_cite(text), plain)
            cites.check_cites([plain])
        with self.assertRaisesRegex(sessions.Refusal, "has no form in it: write `.*` in Latin letters"):
            cites.ascii_cite("Левенштейн 1961")


if __name__ == "__main__":
    unittest.main()

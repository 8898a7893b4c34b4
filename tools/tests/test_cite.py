"""A bound is cited with what it rests on."""

import hashlib
import os
import re
import shutil
import subprocess
import tempfile
import unittest
from pathlib import Path

from support import DATA, FAKE, FAKE_PROGRAM, TOP, needs, needs_program, run

import cite
import table
from code_tables import about, bibliography


def entries(text):
    """The entries of a BibTeX file, each as its kind, its key and its fields, read strictly: ASCII, a field a line, braces that close."""
    found = []
    for part in text.encode("ascii").decode().removesuffix("\n").split("\n\n"):
        kind, key, body = re.fullmatch(r"@([a-z]+)\{([a-z0-9-]+),\n(.*)\n\}", part, re.S).groups()
        fields = {}
        for line in body.split(",\n"):
            name, value = re.fullmatch(r"  ([a-z]+) = \{(.*)\}", line).groups()
            bare = re.sub(r"\\[{}]", "", value)
            depths = [bare[:at].count("{") - bare[:at].count("}") for at in range(len(bare) + 1)]
            assert min(depths) >= 0 and depths[-1] == 0 and name not in fields, line
            fields[name] = value
        found.append((kind, key, fields))
    assert len({key for _, key, _ in found}) == len(found)
    return found


class Cite(unittest.TestCase):
    def test_both_sides_with_their_sources(self):
        out, said, status = run("cite.py", 10, 6, DATA / "page/small.session", env=FAKE | {"SOURCE_DATE_EPOCH": "86400"})
        self.assertEqual((said, status), ("cite: submit hexa: refused taken\n", 0))
        lines = out.splitlines()
        self.assertEqual(lines[:4], ["1 <= A(10,6) <= 1024", "lower bound 1",
                                     "  evidence hexa (words of A(10,6), 1 word): The six words <of length ten> & nothing else.",
                                     "  rule L10: the piece's words are a code of the entry"])
        self.assertEqual(lines[4:6], ["upper bound 1024", "  rule U0: there are 2^n words of length n"])
        self.assertEqual(lines[6:10], ["table      code_tables: a proved table of bounds on the sizes of binary codes, version 0.9, The maintainers of code_tables, 1970-01-02",
                                      f"program    code_tables, SHA-256 {hashlib.sha256(FAKE_PROGRAM.read_bytes()).hexdigest()}",
                                      "commit     unknown", "toolchain  unknown"])
        self.assertRegex(lines[10], "^sessions   SHA-256 [0-9a-f]{64}$")

    def test_bibtex(self):
        out, _, _ = run("cite.py", "--bibtex", 10, 6, DATA / "page/small.session", env=FAKE | {"SOURCE_DATE_EPOCH": "86400"})
        [(kind, key, fields)] = entries(out)
        self.assertEqual((kind, key, fields["year"], fields["version"]), ("misc", "code-tables-10-6", "1970", about.VERSION))
        self.assertEqual(fields["author"], r"{The maintainers of code\_tables}")
        self.assertTrue(fields["title"].endswith(r"$1 \le A(10,6) \le 1024$}"), fields["title"])
        for part in ("Version 0.9.", "Rests on hexa.", "commit unknown", f"Program SHA-256 {hashlib.sha256(FAKE_PROGRAM.read_bytes()).hexdigest()}"):
            self.assertIn(part, fields["note"])

    def test_what_pieces_cite(self):
        out, _, status = run("cite.py", 13, 6, DATA / "page/small.session", env=FAKE)
        self.assertEqual(status, 0)
        self.assertEqual(out.splitlines()[2:7], [
            "  evidence cited (words of A(12,6), 1 word)", "    cites A. Name & B. Other, Of <codes>, 50% new", "    cites Another_one, 1991",
            "  evidence longest (build of A(13,6), 1 word): The code `cited` and a digit: no word more.", "    cites Another_one, 1991"])

    def test_what_pieces_cite_has_an_entry_of_bibtex(self):
        out, _, status = run("cite.py", "--bibtex", 13, 6, DATA / "page/small.session", env=FAKE)
        own, *others = entries(out)
        self.assertEqual(status, 0)
        self.assertIn("Rests on cited, longest.", own[2]["note"])
        notes = (r"A. Name \& B. Other, Of {\textless}codes{\textgreater}, 50\% new", r"Another\_one, 1991", r"A third, \{1992\}")
        self.assertEqual(others, [("misc", key := f"code-tables-13-6-cited-{at}", {"key": key, "note": note}) for at, note in enumerate(notes, 1)])

    def test_the_sources_of_rules_have_entries(self):
        held = table.Held(bounds={(16, 6): (256, 256)}, derivations={("upper", (16, 6)): table.Derivation([], [
            "line 1 upper 15 5 value 256 by U9 from 3", "line 2 upper 16 6 value 256 by U5 from 1"])})
        found = entries(cite.as_bibtex(held, (16, 6)))
        self.assertEqual([key for _, key, _ in found], ["code-tables-16-6", "johnson-1962", "macwilliams-sloane-1977"])
        self.assertEqual(found[1][2]["year"], "1962")

    @needs("bibtex")
    def test_bibtex_reads_all_of_it_without_a_warning(self):
        out, _, _ = run("cite.py", "--bibtex", 13, 6, DATA / "page/small.session", env=FAKE)
        self.compiled(out + "\n" + "\n".join(work.bibtex() for work in bibliography.works().values()))

    def compiled(self, text):
        """Has BibTeX, and LaTeX where it is there, read entries."""
        with tempfile.TemporaryDirectory() as folder:
            (Path(folder) / "all.bib").write_text(text, "ascii")
            (Path(folder) / "all.tex").write_text("\\documentclass{article}\\begin{document}\\nocite{*}\\bibliographystyle{plain}\\bibliography{all}\\end{document}\n")
            (Path(folder) / "all.aux").write_text("\\citation{*}\n\\bibstyle{plain}\n\\bibdata{all}\n")
            said = subprocess.run(["bibtex", "all"], cwd=folder, capture_output=True, text=True)
            self.assertEqual((said.returncode, re.findall("(?i)(?:warning|error).*", said.stdout)), (0, []), said.stdout)
            self.assertEqual((Path(folder) / "all.bbl").read_text().count("\\bibitem"), text.count("\n}\n"))
            if shutil.which("pdflatex"):
                said = subprocess.run(["pdflatex", "-interaction=nonstopmode", "-halt-on-error", "all"], cwd=folder, capture_output=True, text=True, errors="replace")
                self.assertEqual((said.returncode, re.findall("(?m)^!.*", said.stdout)), (0, []), said.stdout[-1500:])

    def test_faults_are_named(self):
        for words, fault in [((10, 6), "give N D, or N D W"), ((31, 6, "x"), "A(31,6) is no entry"), ((10, 5, 3, "x"), "A(10,5,3) is no entry"),
                             ((10, 6, "no/such"), "no/such can't be read")]:
            out, said, status = run("cite.py", *words, env=FAKE)
            self.assertEqual((out, status), ("", 1))
            self.assertIn("cite: refused: " + fault, said)

    def test_a_program_that_is_not_there_is_refused(self):
        _, said, status = run("cite.py", 10, 6, DATA / "page/small.session", env=os.environ | {"CODE_TABLES": "/no/such/program"})
        self.assertEqual((status, said), (1, "cite: refused: the program /no/such/program can't be started: No such file or directory\n"))

    def test_how_the_program_is_cited(self):
        text = (TOP / "CITATION.cff").read_text()
        for field in ("cff-version", "message", "title", "authors"):
            self.assertTrue(re.search(f"^{field}:", text, re.M), field)
        self.assertIn(f'title: "{about.TITLE}"', text)
        self.assertIn(f'version: "{about.VERSION}"', text)
        self.assertIn(f'- name: "{about.AUTHOR}"', text)
        self.assertEqual(re.findall("(?m)^  - (MIT|Apache-2.0)$", text), about.LICENSE.split(" or "))

    @needs_program
    def test_a_bound_of_the_examples(self):
        out, _, status = run("cite.py", 16, 6, "examples/nordstrom-robinson.session")
        self.assertEqual((status, out.splitlines()[:2]), (0, ["A(16,6) = 256", "lower bound 256"]))


if __name__ == "__main__":
    unittest.main()

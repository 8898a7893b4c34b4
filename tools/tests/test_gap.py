"""Codes of GAP's GUAVA become submissions; where GAP isn't there, what it wrote is stored."""

import os
import subprocess
import tempfile
import unittest
from pathlib import Path
from unittest import mock

import support
from support import TOP, data, needs, needs_guava, needs_program, session

from code_tables import sessions
from code_tables.cites import cites_of


def gap(script):
    """Runs GAP in the repository's folder."""
    return subprocess.run(["gap", "-q", "-T"], input=script.encode(), cwd=TOP, capture_output=True)


class Gap(unittest.TestCase):
    @needs_guava
    def test_codes_of_guava(self):
        ended = gap(data("gap/codes.g"))
        self.assertEqual(ended.stderr.decode(), data("gap/codes.err"))
        self.assertEqual(ended.stdout.decode(), data("gap/codes.out"))

    @needs_guava
    def test_a_file_has_whole_lines_and_each_id_once(self):
        codes = 'SubmitCode("rm", ReedMullerCode(1, 4), "{0}");\nSubmitCode("hadamard", HadamardCode(16), "{0}");\n'
        with tempfile.TemporaryDirectory() as folder:
            file = Path(folder) / "codes.session"
            first, again = (gap('Read("tools/code_tables.g");\n' + codes.format(file)) for _ in range(2))
            text = file.read_text()
        self.assertEqual(first.stderr, b"")
        for submitted in sessions.commands(text):
            self.assertEqual(len(submitted.fields["basis"]), 5)
        self.assertIn("# GUAVA says: a linear [16,5,8]6 Reed-Muller (1,4) code over GF(2)\n"
                      "# the distance 8 was computed from a generator matrix\nsubmit rm\n", text)
        self.assertEqual(again.stderr.decode(), "".join(f"Error, code_tables: refused: {file} has a submission of {name} already\n"
                                                        for name in ("rm", "hadamard")))
        self.assertEqual(text.count("submit "), 2)

    @needs_guava
    def test_a_name_of_a_code_writes_no_command(self):
        ended = gap('Read("tools/code_tables.g");\nc := RepetitionCode(5, GF(2));;\nc!.name := "mine\\nshow 5 3";;\nSubmitCode("a", c);\n')
        self.assertEqual([command.words[:2] for command in sessions.commands(ended.stdout.decode())], [["submit", "a"]])

    @needs("gap")
    def test_gap_without_guava_is_refused_in_one_sentence(self):
        script = "LoadPackage := function(name, banner) return fail; end;;\n" + 'Read("tools/code_tables.g");\nPrint(IsBound(SubmitCode), "\\n");\n'
        ended = gap("MakeReadWriteGlobal(\"LoadPackage\");\n" + script)
        self.assertEqual(ended.stderr.decode(), "Error, code_tables: refused: GAP's package GUAVA isn't there: install it\n")
        self.assertEqual(ended.stdout.split()[-1], b"false")

    def test_gap_without_guava_is_a_skip(self):
        with tempfile.TemporaryDirectory() as folder:
            for answer, said in (("fail", "GAP is there without its package GUAVA"), ("false", "GAP is there without its package GUAVA"), ("true", "")):
                file = Path(folder) / "gap"
                file.write_text(f"#!/bin/sh\necho '#I  guava'\necho {answer}\n")
                file.chmod(0o755)
                with mock.patch.dict(os.environ, PATH=f"{folder}:{os.environ['PATH']}"):
                    self.assertEqual(support.guava.__wrapped__(), said)
        with mock.patch.dict(os.environ, PATH=""):
            self.assertEqual(support.guava.__wrapped__(), "gap isn't there")

    def test_a_submission_cites_what_is_said(self):
        cites = {command.id: cites_of(command.fields) for command in sessions.commands(data("gap/codes.out")) if command.words[0] == "submit"}
        self.assertEqual({name: texts for name, texts in cites.items() if texts}, {"cited": ['A. Name, Of "pairs" and \\, 1990', "Another, 1991"]})

    def test_a_submission_says_whose_distance_it_is(self):
        for command in sessions.commands(data("gap/codes.out")):
            if command.words[0] == "submit":
                self.assertRegex("\n".join(command.remarks), r"^GUAVA says: .*\nthe distance \d+ was (computed from|stated)")

    @needs_program
    def test_the_program_accepts_what_is_stored(self):
        self.assertEqual(session(data("gap/codes.out")), "".join(f"accepted {name} size {size}\n" for name, size in [
            ("hamming", 16), ("golay", 4096), ("residues17", 512), ("hadamard11", 12), ("conference9", 20), ("pair", 2), ("zero", 1),
            ("cited", 2), ("none-cited", 2)]))


if __name__ == "__main__":
    unittest.main()

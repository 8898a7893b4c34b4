"""Sage's codes and duals become submissions; where Sage isn't there, what it wrote is stored."""

import contextlib
import io
import runpy
import subprocess
import sys
import tempfile
import unittest
from pathlib import Path
from types import SimpleNamespace
from unittest import mock

from support import TOOLS, TOP, data, needs, needs_program, session

SIZES = {"hamming": 16, "golay": 4096, "reed-muller": 32, "zero": 1}
DUALS = {"delsarte": 256, "odd": 64, "johnson": 14, "larger": 7723}


def functions():
    """The functions of the script, where Sage isn't there: those that ask Sage for nothing but a code work."""
    there = {"sage.numerical.mip": SimpleNamespace(MixedIntegerLinearProgram=None), "sage.rings.rational_field": SimpleNamespace(QQ=None)}
    with mock.patch.dict(sys.modules, there):
        return SimpleNamespace(**runpy.run_path(str(TOOLS / "code_tables.sage.py")))


class Pair:
    """A code of two words, as Sage's codes answer."""

    def __str__(self):
        return "a pair"

    def base_ring(self):
        return SimpleNamespace(order=lambda: 2)

    def basis(self):
        return [(1, 1, 1)]


class Sage(unittest.TestCase):
    def test_a_submission_cites_what_is_said(self):
        submit, out = functions().SubmitCode, io.StringIO()
        with contextlib.redirect_stdout(out):
            submit("pair", Pair(), cites=["A. Name, Pairs, 1990"])
        self.assertEqual(out.getvalue(), '# a pair\nsubmit pair\nformat = 2\ncites = ["A. Name, Pairs, 1990"]\nkind = "cosets"\nn = 3\nd = 3\n'
                                         'basis = ["111"]\nrepresentatives = ["000"]\nend\n')
        with self.assertRaisesRegex(ValueError, "code_tables: refused: cite 1 is empty"):
            submit("pair", Pair(), cites=[""])

    @needs("sage")
    def test_codes_and_duals_of_sage(self):
        with tempfile.TemporaryDirectory() as folder:
            script = Path(folder) / "codes.sage"
            script.write_text(data("sage/codes.sage"))
            ended = subprocess.run(["sage", script], cwd=TOP, capture_output=True)
        self.assertEqual((ended.stderr.decode(), ended.stdout.decode()), ("", data("sage/codes.out")))

    @needs_program
    def test_the_program_accepts_what_is_stored(self):
        replies = session(data("sage/codes.out")).splitlines()
        self.assertEqual([line for line in replies if "size" in line], [f"accepted {name} size {size}" for name, size in SIZES.items()])
        others = [line for line in replies if "size" not in line]
        if "refused kind" in others:
            self.skipTest("this program takes no duals yet")
        self.assertEqual(others, [f"accepted {name}" for name in DUALS])

    def test_the_stored_duals_have_their_bounds(self):
        for name, bound in DUALS.items():
            self.assertIn(f"<= {bound}\nsubmit {name}\n", data("sage/codes.out"))


if __name__ == "__main__":
    unittest.main()

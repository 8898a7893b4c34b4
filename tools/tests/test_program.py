"""CODE_TABLES names the built program, for every tool alike; Python that is too old is an error."""

import os
import re
import shutil
import subprocess
import sys
import tempfile
import unittest
from pathlib import Path

from support import DATA, FAKE, FAKE_PROGRAM, TOOLS, TOP, needs_program, run

from code_tables.program import program

# Runs a script as an older Python would, up to the place where it says so.
OLDER = ("import runpy, sys; sys.version_info = (3, 10, 4, 'final', 0); sys.argv = sys.argv[1:]; sys.path.insert(0, {!r}); "
         "runpy.run_path(sys.argv[0], run_name='__main__')")


class Named(unittest.TestCase):
    def setUp(self):
        folder = tempfile.TemporaryDirectory()
        self.addCleanup(folder.cleanup)
        self.folder = Path(folder.name)
        self.program = self.folder / "a built  program"
        self.program.write_text(FAKE_PROGRAM.read_text().replace("Path(__file__).resolve().parent.parent", repr(str(TOOLS))))
        self.program.chmod(0o755)
        self.named = os.environ | {"CODE_TABLES": str(self.program)}
        self.small = self.folder / "small.session"
        self.small.write_text((DATA / "page/small.session").read_text())

    def test_each_tool_runs_the_program_that_is_named_spaces_and_all(self):
        for tool, *words in (["cite.py", 10, 6, self.small], ["page.py", "--without-derivations", self.small]):
            with self.subTest(tool=tool):
                named, fake = (re.sub("[0-9a-f]{64}", "HASH", run(tool, *words, env=env)[0]) for env in (self.named, FAKE))
                self.assertEqual(named, fake)
                self.assertIn("A(10,6)", named)
        ended = subprocess.run([TOP / "code_tables", "session"], input=b"show 10 6\n", env=self.named, capture_output=True)
        self.assertEqual((ended.stdout, ended.stderr, ended.returncode), (b"1 <= A(10,6) <= 1024\n", b"", 0))

    def test_each_tool_says_so_where_the_named_program_is_not_there(self):
        missing = os.environ | {"CODE_TABLES": "/no/such program"}
        for tool, *words in (["cite.py", 10, 6, self.small], ["page.py", self.small], ["keep.py", self.small, self.folder / "kept"]):
            with self.subTest(tool=tool):
                self.assertIn("the program /no/such program can't be started: No such file or directory", run(tool, *words, env=missing)[1])
        ended = subprocess.run([TOP / "code_tables", "session"], env=missing, capture_output=True)
        self.assertEqual((ended.stderr, ended.returncode), (b"code_tables: CODE_TABLES names no program that can be run: /no/such program\n", 125))

    def test_a_folder_is_no_program(self):
        named, said = os.environ | {"CODE_TABLES": str(self.folder)}, f"CODE_TABLES names a folder, {self.folder}: give it the path of the built program itself"
        ended = subprocess.run([TOP / "code_tables", "session"], stdin=subprocess.DEVNULL, env=named, capture_output=True, text=True)
        self.assertEqual((ended.stdout, ended.stderr, ended.returncode), ("", f"code_tables: {said}\n", 125))
        for tool, *words in (["cite.py", 10, 6, self.small], ["page.py", self.small], ["keep.py", self.small, self.folder / "kept"]):
            self.assertIn(f"refused: {said}", run(tool, *words, env=named)[1])

    def test_the_launcher_says_how_where_rt_is_not_there(self):
        top = self.folder / "checkout"
        (top / "crates").mkdir(parents=True)
        for name in ("code_tables", "crates.txt"):
            shutil.copy(TOP / name, top)
        env = {name: value for name, value in os.environ.items() if name != "CODE_TABLES"} | {"PATH": "/usr/bin:/bin"}
        ended = subprocess.run([top / "code_tables", "session"], stdin=subprocess.DEVNULL, env=env, capture_output=True)
        self.assertEqual(ended.returncode, 125)
        self.assertIn(b"the command rt, which that wants, is not found; where you have a built program, set CODE_TABLES to its path", ended.stderr)

    def test_documents_say_how_a_program_is_named(self):
        for name in ("README.md", "docs/TUTORIAL.md"):
            self.assertIn("CODE_TABLES", (TOP / name).read_text(), name)

    @needs_program
    def test_the_launcher_runs_the_built_program_that_is_named(self):
        copy = self.folder / "with spaces"
        copy.symlink_to(shutil.which(program()))
        ended = subprocess.run([TOP / "code_tables", "session"], input=b"show 16 6\n", env=os.environ | {"CODE_TABLES": str(copy)}, capture_output=True)
        self.assertEqual((ended.stdout, ended.returncode), (b"32 <= A(16,6) <= 256\n", 0))


class Older(unittest.TestCase):
    def test_each_tool_says_which_python_it_wants(self):
        for tool in sorted(TOOLS.glob("*.py")):
            if "__main__" not in tool.read_text() or tool.name == "screenshots.py":
                continue
            with self.subTest(tool=tool.name):
                ended = subprocess.run([sys.executable, "-c", OLDER.format(str(TOOLS)), tool], cwd=TOP, capture_output=True, stdin=subprocess.DEVNULL)
                self.assertEqual(ended.returncode, 1)
                self.assertRegex(ended.stderr.decode(), r"^\S+: Python 3\.11 or later is needed, and this is 3\.10")

    def test_the_tests_are_never_green_there(self):
        ended = subprocess.run([sys.executable, "-c", OLDER.format(str(TOOLS)), TOOLS / "test.py"], cwd=TOP, capture_output=True)
        self.assertEqual((ended.returncode, ended.stdout), (1, b""))
        self.assertIn(b"nothing was tried", ended.stderr)


if __name__ == "__main__":
    unittest.main()

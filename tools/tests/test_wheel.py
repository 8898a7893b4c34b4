"""The package as a wheel and as a source distribution: what it carries, its metadata, and that it answers where nothing else is."""

import email
import hashlib
import os
import subprocess
import sys
import tarfile
import tempfile
import time
import unittest
import venv
import zipfile
from pathlib import Path
from unittest import mock

from support import FAKE_PROGRAM, TOOLS, TOP, needs_program

import build_package
from code_tables import answers, places, program

LIBRARY = sorted(file.name for file in (TOP / "examples/library").glob("*.session"))
LICENSES = ["LICENSE", "LICENSE-APACHE", "LICENSE-MIT"]
# A machine without the toolchain, and without a program that is named.
BARE = {"PATH": "/usr/bin:/bin"}


def wheel_in(folder, file=None):
    """The wheel that carries a program, or none, in a folder."""
    with mock.patch.object(program, "BUILT", Path("no/such/program")):
        return Path(folder) / build_package.build_wheel(folder, {"program": str(file)} if file else None)


class Distributions(unittest.TestCase):
    @classmethod
    def setUpClass(cls):
        folder = tempfile.TemporaryDirectory()
        cls.addClassCleanup(folder.cleanup)
        cls.pure = wheel_in(folder.name)

    def setUp(self):
        folder = tempfile.TemporaryDirectory()
        self.addCleanup(folder.cleanup)
        self.folder = Path(folder.name)

    def test_a_wheel_without_a_program_is_for_any_platform(self):
        self.assertEqual(self.pure.name, "code_tables-0.9-py3-none-any.whl")
        names = zipfile.ZipFile(self.pure).namelist()
        self.assertEqual([name for name in names if "carried/program" in name or "answers" in name], ["code_tables/answers.py"])
        self.assertEqual(sorted(name.split("/")[-1] for name in names if "/library/" in name), LIBRARY)

    def test_its_metadata(self):
        with zipfile.ZipFile(self.pure) as wheel:
            told = email.message_from_bytes(wheel.read("code_tables-0.9.dist-info/METADATA"))
            self.assertEqual((told["Metadata-Version"], told["Name"], told["Version"], told["License-Expression"], told["Requires-Python"]),
                             ("2.4", "code-tables", "0.9", "MIT OR Apache-2.0", ">=3.11"))
            self.assertEqual(told.get_all("License-File"), LICENSES)
            for name in LICENSES:
                self.assertEqual(wheel.read(f"code_tables-0.9.dist-info/licenses/{name}"), (TOP / name).read_bytes())
            self.assertIn("Topic :: Scientific/Engineering :: Mathematics", told.get_all("Classifier"))
            self.assertEqual((told["Description-Content-Type"], told.get_payload(decode=True)), ("text/markdown; charset=UTF-8", (TOP / "README.md").read_bytes()))
            self.assertEqual(wheel.read("code_tables-0.9.dist-info/entry_points.txt").decode(), "[console_scripts]\ncode-tables = code_tables.first:main\n")

    def test_the_versions_are_one(self):
        self.assertIn(f'version: "{build_package.project()["version"]}"', (TOP / "CITATION.cff").read_text())

    def test_the_source_distribution_makes_the_same_wheel(self):
        name = build_package.build_sdist(self.folder)
        self.assertEqual(name, "code_tables-0.9.tar.gz")
        with tarfile.open(self.folder / name) as archive:
            self.assertEqual({member.name.split("/")[0] for member in archive.getmembers()}, {"code_tables-0.9"})
            archive.extractall(self.folder, filter="data") if hasattr(tarfile, "data_filter") else archive.extractall(self.folder)
        source = self.folder / "code_tables-0.9"
        self.assertIn("\nName: code-tables\n", (source / "PKG-INFO").read_text())
        script = "import build_package, sys; print(build_package.build_wheel(sys.argv[1]))"
        (self.folder / "again").mkdir()
        made = subprocess.run([sys.executable, "-c", script, self.folder / "again"], cwd=source, env=BARE, capture_output=True, text=True)
        self.assertEqual(made.stdout, "code_tables-0.9-py3-none-any.whl\n", made.stderr)
        self.assertEqual((self.folder / "again" / made.stdout.strip()).read_bytes(), self.pure.read_bytes())

    def test_a_platform_wheel_carries_the_program_with_its_record(self):
        file = self.folder / "program"
        file.write_text(FAKE_PROGRAM.read_text().replace("Path(__file__).resolve().parent.parent", repr(str(TOOLS))))
        file.chmod(0o755)
        file.with_name("program.origin").write_text("program 00\ncommit 11\n")
        wheel = wheel_in(self.folder, file)
        self.assertRegex(wheel.name, r"^code_tables-0\.9-py3-none-linux_\w+\.whl$")
        with zipfile.ZipFile(wheel) as archive:
            self.assertEqual(archive.read("code_tables/carried/program/code_tables"), file.read_bytes())
            self.assertEqual(archive.read("code_tables/carried/program/code_tables.origin"), b"program 00\ncommit 11\n")
            self.assertEqual(archive.getinfo("code_tables/carried/program/code_tables").external_attr >> 16, 0o100755)
            head, *lines = archive.read("code_tables/carried/answers.txt").decode().split("1 <= A(3,3)", 1)[0].split("A(1,3) = 1\n")
            self.assertEqual(head.splitlines()[1], f"# program {hashlib.sha256(file.read_bytes()).hexdigest()}")
        with self.assertRaisesRegex(SystemExit, "no/such is no file"):
            build_package.build_wheel(self.folder, {"program": "no/such"})


class Answers(unittest.TestCase):
    """Answers count where the program and the sessions are those that they were made by."""

    def setUp(self):
        folder = tempfile.TemporaryDirectory()
        self.addCleanup(folder.cleanup)
        self.carried = Path(folder.name)
        for name in ("program", "library"):
            (self.carried / name).mkdir()
        (self.carried / "program/code_tables").write_text("a program")
        (self.carried / "library/1.session").write_text("a session\n")
        for patch in (mock.patch.object(places, "CARRIED", str(self.carried)), mock.patch.dict(os.environ)):
            patch.start()
            self.addCleanup(patch.stop)
        os.environ.pop("CODE_TABLES", None)
        text = answers.head(places.carried_program(), places.library())
        (self.carried / "answers.txt").write_text(text + "A(1,3) = 1\nA(11,3) = 144\n1 <= A(11,3,2) <= 5\n")

    def test_what_stands_there_is_answered(self):
        self.assertEqual((answers.line(1, 3), answers.line(11, 3), answers.line(11, 3, 2), answers.line(12, 3)),
                         ("A(1,3) = 1", "A(11,3) = 144", "1 <= A(11,3,2) <= 5", None))

    def test_another_program_or_library_has_no_answers(self):
        for name, text in (("program/code_tables", "another"), ("library/1.session", "another\n"), ("library/2.session", "one more\n"),
                           ("answers.txt", "# code_tables answers 1\nA(1,3) = 7\n")):
            with self.subTest(name=name):
                before = (self.carried / name).read_text() if (self.carried / name).exists() else None
                (self.carried / name).write_text(text)
                self.assertIsNone(answers.line(1, 3))
                (self.carried / name).unlink() if before is None else (self.carried / name).write_text(before)
                self.assertEqual(answers.line(1, 3), "A(1,3) = 1")
        with mock.patch.dict(os.environ, CODE_TABLES="/another/program"):
            self.assertIsNone(answers.line(1, 3))


@needs_program
class Installed(unittest.TestCase):
    @classmethod
    def setUpClass(cls):
        folder = tempfile.TemporaryDirectory()
        cls.addClassCleanup(folder.cleanup)
        cls.folder = Path(folder.name)
        venv.create(cls.folder / "venv", with_pip=False)
        site = next((cls.folder / "venv").glob("lib/python*/site-packages"))
        ended = subprocess.run([sys.executable, "-m", "pip", "install", "--quiet", "--no-index", "--no-deps", "--no-build-isolation", "--disable-pip-version-check",
                                "--prefix", cls.folder / "venv", "--ignore-installed", "--config-settings", f"program={program.file()}", TOOLS],
                               cwd=cls.folder, capture_output=True, text=True)
        if "No module named pip" in ended.stderr:
            raise unittest.SkipTest("there is no pip")
        if ended.returncode:
            raise AssertionError(ended.stderr)
        cls.package = site / "code_tables"
        cls.python = cls.folder / "venv/bin/python"

    def code_tables(self, *words, text=""):
        return subprocess.run([self.python, "-m", "code_tables", *words], input=text, cwd="/", env=BARE, capture_output=True, text=True)

    def test_it_answers_where_nothing_else_is(self):
        self.assertTrue((self.folder / "venv/bin/code-tables").is_file())
        for words, said in ((["show", "17", "6"], "256 <= A(17,6) <= 340\n"), (["show", "--empty", "17", "6"], "48 <= A(17,6) <= 428\n"),
                            (["table", "30"], "".join(f"A({n},30) = {1 + (n == 30)}\n" for n in range(1, 31)))):
            ended = self.code_tables(*words)
            self.assertEqual((ended.stdout, ended.stderr, ended.returncode), (said, "", 0))
        script = "from code_tables import bounds; print(bounds(17, 6), bounds(17, 6, empty=True))"
        ended = subprocess.run([self.python, "-c", script], cwd="/", env=BARE, capture_output=True, text=True)
        self.assertEqual((ended.stdout, ended.stderr), ("Bounds(lower=256, upper=340) Bounds(lower=48, upper=428)\n", ""))

    def test_a_first_answer_takes_at_most_twenty_empty_sessions(self):
        def least(words):
            """The least time of five runs."""
            times = []
            for _ in range(5):
                begin = time.monotonic()
                subprocess.run(words, stdin=subprocess.DEVNULL, stdout=subprocess.DEVNULL, cwd="/", env=BARE, check=True)
                times.append(time.monotonic() - begin)
            return min(times)
        empty = least([self.package / "carried/program/code_tables", "session"])
        for words in (["-m", "code_tables", "show", "17", "6"], ["-c", "from code_tables import bounds; bounds(17, 6)"]):
            with self.subTest(words=words):
                self.assertLess(least([self.python, *words]), 20 * empty)

    def test_what_it_carries_of_answers_is_what_the_program_answers(self):
        told = (self.package / "carried/answers.txt").read_text()
        lines = "".join(line + "\n" for line in told.splitlines() if not line.startswith("#"))
        self.assertEqual(build_package.answered(self.package / "carried/program/code_tables").split("\n", 3)[3], lines)

    def test_the_other_commands_run_there(self):
        for words, start in ((["cite", "9", "4"], "@"), (["explain", "upper", "16", "6"], "derivation\n"), (["list", "9", "6"], "000000000\n"),
                             (["--version"], "code-tables 0.9\nprogram "), (["page", "--empty", "--without-derivations"], "<!DOCTYPE html>")):
            with self.subTest(words=words):
                ended = self.code_tables(*words)
                self.assertTrue(ended.stdout.startswith(start), ended.stdout[:200] + ended.stderr)
                self.assertEqual(ended.returncode, 0)


if __name__ == "__main__":
    unittest.main()

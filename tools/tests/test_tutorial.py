"""The commands of README, TUTORIAL and AUDIT answer what stands below them, and leave no file; and the version and its date are told alike."""

import doctest
import os
import re
import shlex
import subprocess
import sys
import tempfile
import unittest
from pathlib import Path

from support import TOOLS, TOP, needs_guava, needs_program, session, workplace

from code_tables.program import program


def blocks(text):
    """The blocks of a document that show commands: each command, after `$ `, with the lines below it."""
    for block in re.findall(r"^```\n(.*?)^```$", text, re.M | re.S):
        commands = re.split(r"^\$ ", block, flags=re.M)
        if not commands[0]:
            yield [(command.split("\n", 1) + [""])[:2] for command in commands[1:]]


def installed(test):
    """The environment in which the command `code-tables` is that of this repository, as after an installation."""
    folder = tempfile.TemporaryDirectory()
    test.addCleanup(folder.cleanup)
    command = Path(folder.name) / "code-tables"
    command.write_text(f'#!/bin/sh\nPYTHONPATH={shlex.quote(str(TOOLS))} exec {shlex.quote(sys.executable)} -m code_tables "$@"\n')
    command.chmod(0o755)
    return os.environ | {"PATH": folder.name + os.pathsep + os.environ["PATH"]}


def answer(command, folder, environment):
    """What a command line answers in a folder, with the program that is tried in the place of ./code_tables."""
    line = command.replace("./code_tables", shlex.quote(program()))
    return subprocess.run(line, shell=True, cwd=folder, env=environment, stdout=subprocess.PIPE).stdout.decode()


def lines_of_python(document):
    """What stands after `>>> ` in a document, and what is below each, up to the end of its block."""
    return [(one.source, one.want.split("```")[0]) for one in doctest.DocTestParser().get_examples((TOP / document).read_text())]


def matches(shown, said):
    """Whether an output is the one shown, in which `..` stands for lines that are left out."""
    pattern = "".join(r"(?:.*\n)*?" if line == ".." else re.escape(line) + r"\n" for line in shown.splitlines())
    return re.fullmatch(pattern, said)


# The documents whose commands are run.
DOCUMENTS = ("README.md", "docs/TUTORIAL.md", "docs/AUDIT.md")


class Tutorial(unittest.TestCase):
    def check(self, document):
        """Runs the commands of a document; those that ask for what this program doesn't have yet are left out."""
        has = {"explain": not session("explain upper 16 6\n").startswith("refused command")}
        left, folder, environment = 0, workplace(self), installed(self)
        for name in ("bench", "crates"):
            (Path(folder) / name).symlink_to(TOP / name)
        before = sorted(os.listdir(folder))
        for block in blocks((TOP / document).read_text()):
            for command, shown in block:
                if any(word in command and not there for word, there in has.items()):
                    left += 1
                    continue
                with self.subTest(command=command):
                    said = answer(command, folder, environment)
                    self.assertTrue(matches(shown, said), f"{document} shows\n{shown}and the answer is\n{said}")
        self.assertEqual(sorted(os.listdir(folder)), before, f"the commands of {document} leave files")
        if left:
            self.skipTest(f"this program explains nothing yet: {left} commands of {document} were left out")

    @needs_program
    def test_the_readme(self):
        self.check("README.md")

    @needs_program
    def test_the_tutorial(self):
        self.check("docs/TUTORIAL.md")

    @needs_program
    def test_the_audit(self):
        self.check("docs/AUDIT.md")

    def test_each_command_is_run(self):
        """A block that shows a command begins with one, so that it is run; what else a block shows is Python, or a session of GAP."""
        for document in DOCUMENTS:
            text = (TOP / document).read_text()
            shown = len(re.findall(r"^\$ ", text, re.M))
            self.assertTrue(shown, document)
            self.assertEqual(shown, sum(map(len, blocks(text))), document)
            for block in re.findall(r"^```\n(.*?)^```$", text, re.M | re.S):
                self.assertRegex(block, r"\A(?:\$|>>>|gap>) ", document)

    @needs_program
    def test_the_lines_of_python(self):
        """What stands after `>>> `, from the repository's folder, each document by itself."""
        self.assertTrue(lines_of_python("docs/TUTORIAL.md"))
        for document in DOCUMENTS:
            examples = lines_of_python(document)
            script = "".join(f"print(repr({source.strip()}))\n" if want else source for source, want in examples)
            ended = subprocess.run([sys.executable, "-c", script], cwd=TOP, env=os.environ | {"PYTHONPATH": str(TOOLS)}, capture_output=True, text=True)
            self.assertEqual((ended.stdout, ended.stderr), ("".join(want for _, want in examples), ""), document)

    @needs_guava
    def test_the_session_of_guava(self):
        lines = re.findall(r"^gap> (.*)$", (TOP / "docs/TUTORIAL.md").read_text(), re.M)
        script = "\n".join(line.replace(', "guava.session"', "") for line in lines)
        said = subprocess.run(["gap", "-q", "-T"], input=script.encode(), cwd=TOP, capture_output=True)
        self.assertEqual(said.stderr, b"")
        self.assertEqual(re.findall(rb"^submit (.*)$", said.stdout, re.M), [b"golay", b"conference"])


class Versions(unittest.TestCase):
    def test_the_version_and_its_date_are_told_alike(self):
        """CITATION.cff has the version and the date of the newest entry of CHANGELOG.md, and the package has the version."""
        version, date = re.search(r"^## (\S+) \((\d{4}-\d\d-\d\d)\)$", (TOP / "CHANGELOG.md").read_text(), re.M).groups()
        citation = (TOP / "CITATION.cff").read_text()
        self.assertIn(f'\nversion: "{version}"\n', citation)
        self.assertIn(f'\ndate-released: "{date}"\n', citation)
        self.assertIn(f'\nversion = "{version}"\n', (TOOLS / "pyproject.toml").read_text())

    def test_the_citation_has_the_keys_of_its_format(self):
        """The keys of the schema of CFF 1.2.0 and no others, each with a value; the address is a comment, the one line to fill in."""
        text = (TOP / "CITATION.cff").read_text()
        keys = re.findall(r"^([a-z-]+):", text, re.M)
        self.assertEqual(len(keys), len(set(keys)))
        self.assertLessEqual({"cff-version", "message", "title", "authors"}, set(keys))
        self.assertLessEqual(set(keys), {
            "abstract", "authors", "cff-version", "commit", "contact", "date-released", "doi", "identifiers", "keywords", "license", "license-url",
            "message", "preferred-citation", "references", "repository", "repository-artifact", "repository-code", "title", "type", "url", "version"})
        self.assertIn("cff-version: 1.2.0\n", text)
        self.assertFalse(re.search(r"^[a-z-]+: *(\"\")?\n(?! )", text, re.M))
        self.assertEqual(re.findall(r"^# ([a-z-]+):", text, re.M), ["url"])


if __name__ == "__main__":
    unittest.main()

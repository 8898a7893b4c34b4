"""What the tests of the tools share."""

import contextlib
import importlib
import io
import os
import shutil
import subprocess
import sys
import tempfile
import unittest
from functools import cache, wraps
from pathlib import Path
from unittest import mock

TOOLS = Path(__file__).resolve().parent.parent
TOP = TOOLS.parent
DATA = TOOLS / "tests" / "data"
sys.path.insert(0, str(TOOLS))

# The built program itself, and not ./code_tables, which would prove it first where a source changed.
BUILT = TOP / "crates/ct_program/out/ct_program"
if BUILT.exists():
    os.environ.setdefault("CODE_TABLES", str(BUILT))
HAS_PROGRAM = bool(os.environ.get("CODE_TABLES"))
# The environment in which a tool takes the false program for the built one.
FAKE_PROGRAM = TOOLS / "tests/fake_program.py"
FAKE = os.environ | {"CODE_TABLES": str(FAKE_PROGRAM)}
# What no document cites, with what the importers say of it.
CITE_FAULTS = [([""], "cite 1 is empty"), (["a", "x" * 201], "cite 2 has 201 bytes, and a cite has at most 200: `x"),
               (["\u00d6sterg\u00e5rd"], "cite 1 has the sign '\\xd6', and a cite has printable ASCII alone: `\u00d6sterg\u00e5rd`"),
               (["a", "tab\there"], "cite 2 has the sign '\\t'"), (["line\nend"], "cite 1 has the sign '\\n'"), (["\x7f"], "cite 1 has the sign '\\x7f'"),
               (["a"] * 17, "17 cites, and a document has at most 16")]
needs_program = unittest.skipUnless(HAS_PROGRAM, "the program isn't built")


def needs(command):
    """Skips a test where a command isn't there."""
    return unittest.skipUnless(shutil.which(command), f"{command} isn't there")


@cache
def guava():
    """Why no code of GUAVA can be made here; nothing where it can."""
    if not shutil.which("gap"):
        return "gap isn't there"
    said = subprocess.run(["gap", "-q", "-T"], input=b'Print(LoadPackage("guava", false) = true, "\\n");', capture_output=True).stdout
    return "" if said.split()[-1:] == [b"true"] else "GAP is there without its package GUAVA"


def needs_guava(test):
    """Skips a test where GAP or GUAVA isn't there."""
    @wraps(test)
    def tried(self):
        if guava():
            self.skipTest(guava())
        test(self)
    return tried


def run(*words, text="", **more):
    """Runs a tool: its output, what it said on standard error, its status."""
    ended = subprocess.run([sys.executable, str(TOOLS / words[0]), *map(str, words[1:])], input=text.encode(), cwd=TOP, capture_output=True, **more)
    return ended.stdout.decode(), ended.stderr.decode(), ended.returncode


def call(tool, *words, text=""):
    """The same within this process, for many short runs."""
    out, said, status = io.TextIOWrapper(io.BytesIO(), "utf-8"), io.StringIO(), 0
    with mock.patch.object(sys, "argv", [f"{tool}.py", *map(str, words)]), mock.patch.object(sys, "stdin", io.TextIOWrapper(io.BytesIO(text.encode()))), \
            contextlib.redirect_stdout(out), contextlib.redirect_stderr(said):
        try:
            importlib.import_module(tool).main()
        except SystemExit as end:
            status = end.code if isinstance(end.code, int) else int(end.code is not None)
            if isinstance(end.code, str):
                print(end.code, file=sys.stderr)
    out.flush()
    return out.buffer.getvalue().decode(), said.getvalue(), status


def session(text, mode="session"):
    """What the program answers in a mode."""
    from code_tables.program import program
    return subprocess.run([program(), mode], input=text.encode(), stdout=subprocess.PIPE).stdout.decode()


def data(name):
    """A stored text."""
    return (DATA / name).read_text()


def workplace(test):
    """A folder for what the commands of documents write, in which the repository's folders are seen."""
    folder = tempfile.TemporaryDirectory()
    test.addCleanup(folder.cleanup)
    for name in ("docs", "examples", "tools", "code_tables"):
        (Path(folder.name) / name).symlink_to(TOP / name)
    return folder.name

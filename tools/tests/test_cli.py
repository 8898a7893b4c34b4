"""The command `code-tables`: what each subcommand answers, and what it says where something is wrong."""

import contextlib
import io
import os
import re
import signal
import subprocess
import sys
import time
import tomllib
import unittest
from unittest import mock

from support import FAKE, TOOLS, TOP, call, needs_program

from code_tables import cli


def code_tables(*words, text="", env=None):
    """Runs the command: its output, what it said on standard error but for how long it takes, its status."""
    with mock.patch.dict(os.environ, env or {}):
        out, said, status = call("code_tables.cli", *words, text=text)
    return out, re.sub(r"code-tables: .* s so far; Ctrl-C stops it\n", "", said), status


class Words(unittest.TestCase):
    def test_each_subcommand_has_a_help_with_an_example(self):
        told = code_tables("--help")
        self.assertEqual(told[1:], ("", 0))
        for name in cli.COMMANDS:
            self.assertIn(f"\n    {name} ", told[0])
            with contextlib.redirect_stdout(io.StringIO()) as said, self.assertRaises(SystemExit) as end:
                cli.read_options([name, "-h"])
            self.assertEqual(end.exception.code, 0)
            self.assertIn(f"Example: code-tables {name}", said.getvalue())

    def test_the_version_says_which_program_and_library_are_asked(self):
        out, said, status = code_tables("--version", env=FAKE)
        self.assertEqual((said, status), ("", 0))
        version = tomllib.loads((TOOLS / "pyproject.toml").read_text())["project"]["version"]
        self.assertRegex(out, rf"^code-tables {version}\nprogram    .*fake_program.py\nsha256     [0-9a-f]{{64}}\ncommit     unknown\ntoolchain  unknown\nlibrary    [0-9a-f]{{64}}\n$")

    def test_wrong_words_are_named(self):
        for words, fault in ((["shwo", 1, 2], "invalid choice: 'shwo'"), (["show"], "required: N, D"), (["show", 12.7, 4], "argument N: 12.7 is no whole number"),
                             (["show", -1, 4], "argument N: -1 is no whole number"), (["show", 16, 6, "--all"], "--all: no argument of show; code-tables show -h describes it"),
                             (["explain", "both", 16, 6], "invalid choice: 'both'"), ([], "required: COMMAND")):
            with self.subTest(words=words):
                out, said, status = code_tables(*words, env=FAKE)
                self.assertEqual((out, status), ("", 2))
                self.assertIn(fault, said)

    def test_refusals_are_sentences(self):
        where = "A(n,d) has n from 1 to 30 and d from 3 to 30, and A(n,d,w) besides has an even d and w at most n"
        for words, fault in ((["show", 31, 3], f"A(31,3) is not in the table: {where}"), (["list", 10, 5, 3], f"A(10,5,3) is not in the table: {where}"),
                             (["table", 31], f"A(30,31) is not in the table: {where}"), (["export"], "nothing to write: give --csv FILE, --json FILE or both"),
                             (["verify", "/no/such"], "/no/such can't be read: No such file or directory"),
                             (["improves", TOP / "README.md"], "line 3 is no word of digits 0 and 1"),
                             (["show", 16, 6, "--with", "/no/such"], "/no/such can't be read")):
            with self.subTest(words=words):
                out, said, status = code_tables(*words, env=FAKE)
                self.assertEqual((out, status), ("", 1))
                self.assertTrue(said.startswith(f"code-tables: refused: {fault}"), said)

    def test_a_program_that_is_not_there_is_said(self):
        for place, fault in (("/no/such", "the program /no/such can't be started: No such file or directory"), (str(TOOLS), "CODE_TABLES names a folder")):
            out, said, status = code_tables("show", 16, 6, env=os.environ | {"CODE_TABLES": place})
            self.assertEqual((out, status), ("", 1))
            self.assertIn(f"code-tables: refused: {fault}", said)

    def test_ctrl_c_is_no_traceback(self):
        with mock.patch.object(cli, "show", side_effect=KeyboardInterrupt), contextlib.redirect_stderr(io.StringIO()) as said:
            with mock.patch.dict(cli.COMMANDS, show=(*cli.COMMANDS["show"][:3], cli.show)), mock.patch.object(sys, "argv", ["-m"]), self.assertRaises(SystemExit) as end:
                cli.main(["show", "16", "6"])
        self.assertEqual(end.exception.code, 130)
        self.assertEqual(said.getvalue(), "code-tables: stopped\n")

    def test_what_takes_more_than_two_seconds_is_said(self):
        with mock.patch.object(cli, "PATIENCE", 0.1), mock.patch.object(cli, "AGAIN", 0.1), contextlib.redirect_stderr(io.StringIO()) as said:
            with cli.progress("thinking"):
                time.sleep(0.4)
            told = said.getvalue()
            with cli.progress("no more"):
                pass
            time.sleep(0.3)
        self.assertEqual(cli.PATIENCE, 2)
        self.assertRegex(told, r"^(code-tables: thinking: [\d.]+ s so far; Ctrl-C stops it\n){2,4}$")
        self.assertNotIn("no more", said.getvalue())


@needs_program
class Answers(unittest.TestCase):
    def test_bounds_over_the_library_and_over_the_empty_table(self):
        for words, shown in ((["show", 17, 6], "256 <= A(17,6) <= 340\n"), (["show", 17, 6, "--empty"], "48 <= A(17,6) <= 428\n"),
                             (["--empty", "show", 17, 6], "48 <= A(17,6) <= 428\n"), (["show", 24, 8, 8], "A(24,8,8) = 759\n"),
                             (["--empty", "show", 16, 6, "--with", TOP / "examples/nordstrom-robinson.session"], "A(16,6) = 256\n")):
            self.assertEqual(code_tables(*words)[::2], (shown, 0))
        self.assertIn("code-tables: submit closer is refused: close 0 32 6\n", code_tables("show", 16, 6, "--with", TOP / "examples/nordstrom-robinson.session")[1])

    def test_who_reads_no_further_ends_it_without_a_word(self):
        read, write = os.pipe()
        os.close(read)
        with open(write, "wb") as closed:
            ended = subprocess.run([sys.executable, "-m", "code_tables", "--empty", "table", "6"], stdout=closed, stderr=subprocess.PIPE, env=os.environ | {"PYTHONPATH": str(TOOLS)})
        self.assertEqual((ended.stderr, ended.returncode), (b"", 128 + signal.SIGPIPE))

    def test_a_column(self):
        lines = code_tables("table", 6)[0].splitlines()
        self.assertEqual((len(lines), lines[16]), (30, "256 <= A(17,6) <= 340"))

    def test_a_derivation_is_verified(self):
        derivation = code_tables("explain", "upper", 16, 6)[0]
        self.assertEqual(code_tables("verify", "-", text=derivation), ("yes\n", "", 0))
        out, said, status = code_tables("verify", "-", text=derivation.replace("value 256", "value 255"))
        self.assertEqual((out.split()[0], said, status), ("no", "", 1))

    def test_the_words_of_a_code(self):
        words = code_tables("list", 16, 6)[0].split()
        self.assertEqual((len(words), words), (256, sorted(set(words))))
        self.assertTrue(all(re.fullmatch("[01]{16}", word) for word in words))

    def test_a_dual_is_found_and_improves(self):
        found = code_tables("find", 22, 10)
        self.assertEqual(found[1:], ("", 0))
        out, said, status = code_tables("improves", "-", "--empty", text=found[0])
        self.assertEqual((said, status), ("", 0))
        self.assertIn("find-22-10 is accepted: dual of A(22,10)\n", out)
        self.assertIn("  A(22,10): upper bound 95 instead of 160", out)

    def test_a_citation(self):
        self.assertTrue(code_tables("cite", 16, 6, "--empty")[0].startswith("@"))
        self.assertIn("lower bound 256\n", code_tables("cite", 16, 6, "--text")[0])

    def test_a_tool_gets_the_sessions_and_its_own_options(self):
        library = [str(TOP / "examples/library" / name) for name in sorted(os.listdir(TOP / "examples/library")) if name.endswith(".session")]
        with mock.patch.object(cli, "run_tool", return_value=0) as run:
            for words, tool, options in ((["export", "--csv", "a.csv", "--json", "a.json"], "table_data", ["--csv", "a.csv", "--json", "a.json", *library]),
                                         (["export", "--empty", "--csv", "a.csv"], "table_data", ["--csv", "a.csv", os.devnull]),
                                         (["page", "--empty", "--words", "folder"], "page", ["--words", "folder", os.devnull]),
                                         (["cite", 24, 8, 8, "--with", "new"], "cite", ["--bibtex", "24", "8", "8", *library, "new"])):
                self.assertEqual(code_tables(*words), ("", "", 0))
                self.assertEqual(run.call_args.args[:2], (tool, options))


if __name__ == "__main__":
    unittest.main()

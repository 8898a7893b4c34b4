"""Where a device fails, the input is too long or memory runs out, the program's number tells, and a line on standard error."""

import os
import resource
import subprocess
import tempfile
import unittest

import support
from code_tables.program import program

MAX_INPUT = 67108864


def ended(mode="session", text=b"show 10 6\n", **devices):
    """The status of the program, its output and what it said on standard error; devices stand in for the standard ones."""
    standard = {"stdout": subprocess.PIPE, "stderr": subprocess.PIPE} | devices
    if "stdin" not in standard:
        standard["input"] = text
    done = subprocess.run([program(), mode], **standard)
    return done.returncode, done.stdout, done.stderr


@support.needs_program
class Faults(unittest.TestCase):
    def assert_says(self, came, status, said):
        self.assertEqual((came[0], came[2]), (status, f"code_tables: {said}\n".encode()))

    def test_a_failed_read(self):
        # A folder can be opened, and not read.
        folder = os.open("/", os.O_RDONLY)
        self.addCleanup(os.close, folder)
        for mode in ("session", "verify", "find"):
            with self.subTest(mode=mode):
                came = ended(mode, stdin=folder)
                self.assert_says(came, 3, "a read failed: standard input is a directory")
                self.assertEqual(came[1], b"")

    def test_an_input_that_is_closed(self):
        came = ended(stdin=None, preexec_fn=lambda: os.close(0))
        self.assert_says(came, 3, "a read failed: standard input is not open for reading")
        self.assertEqual(came[1], b"")

    def test_an_input_that_is_open_for_writing_alone(self):
        # What is open for writing alone can't be read.
        with open(os.devnull, "wb") as sink:
            self.assert_says(ended(stdin=sink), 3, "a read failed: standard input is not open for reading")

    def test_words_that_are_no_command_are_named(self):
        usage = b"usage: code_tables session | verify | find | sample --number N\n"
        for words, said in [(["tables"], "no command has the word tables"), (["session", "all", "more"], "no command has the word all"),
                            (["sample", "--number", "5", "--all"], "no command has the word --all"), (["--help"], "no command has the word --help"),
                            ([""], "no command has the word "), (["session", "session"], "these words together are no command"),
                            (["sample"], "these words together are no command"), (["verify", "--number=5"], "these words together are no command")]:
            with self.subTest(words=words):
                came = subprocess.run([program(), *words], stdin=subprocess.DEVNULL, capture_output=True)
                self.assertEqual(came.stdout, usage)
                self.assert_says((came.returncode, came.stdout, came.stderr), 2, said)
        came = subprocess.run([program()], stdin=subprocess.DEVNULL, capture_output=True)
        self.assertEqual((came.returncode, came.stdout, came.stderr), (2, usage, b""))

    def test_a_failed_write(self):
        with open("/dev/full", "wb") as full:
            self.assert_says(ended(stdout=full), 4, "a write failed")

    def test_a_pipe_that_is_closed(self):
        read, write = os.pipe()
        os.close(read)
        self.addCleanup(os.close, write)
        self.assert_says(ended(stdout=write), 4, "a write failed")

    def test_an_input_that_is_too_long(self):
        with tempfile.TemporaryFile() as source:
            source.truncate(MAX_INPUT + 1)
            came = ended(stdin=source)
        self.assert_says(came, 5, f"the input is longer than {MAX_INPUT} bytes")

    def test_memory_that_runs_out(self):
        # One line of 64 MiB is gathered in memory.
        space = 48 * 2 ** 20
        with tempfile.TemporaryFile() as source:
            source.truncate(MAX_INPUT)
            came = ended(stdin=source, preexec_fn=lambda: resource.setrlimit(resource.RLIMIT_AS, (space, space)))
        self.assert_says(came, 6, "out of memory")

    def test_nothing_is_said_otherwise(self):
        for mode, text, status in (("session", b"show 10 6\n", 0), ("session", b"foo\n", 1)):
            with self.subTest(mode=mode, text=text):
                came = ended(mode, text)
                self.assertEqual((came[0], came[2]), (status, b""))

    def test_the_status_is_the_same_where_standard_error_fails_too(self):
        read, write = os.pipe()
        os.close(read)
        self.addCleanup(os.close, write)
        with open("/dev/full", "wb") as full:
            for error in (full, write):
                with self.subTest(error=error):
                    self.assertEqual(ended(stdout=full, stderr=error)[0], 4)
            closed = ended(stdout=full, stderr=None, preexec_fn=lambda: os.close(2))
            self.assertEqual(closed[0], 4)


if __name__ == "__main__":
    unittest.main()

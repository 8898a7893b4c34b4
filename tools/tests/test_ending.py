"""A tool whose reader is gone, or that is stopped, ends without a traceback; one that is given no session says so."""

import signal
import subprocess
import sys
import tempfile
import unittest
from pathlib import Path

from support import DATA, FAKE, TOOLS, TOP, run


def started(*words, **more):
    """A tool that runs."""
    return subprocess.Popen([sys.executable, str(TOOLS / words[0]), *map(str, words[1:])], stdout=subprocess.PIPE, stderr=subprocess.PIPE, cwd=TOP, **more)


class Ending(unittest.TestCase):
    def test_a_reader_that_is_gone(self):
        with tempfile.TemporaryDirectory() as folder:
            session = Path(folder) / "long.session"
            session.write_text("show 9 4\n" * 20000)
            tool = started("annotate.py", session, stdin=subprocess.PIPE)
            tool.stdin.write(b"16 <= A(9,4) <= 25\n" * 20000)
            tool.stdin.close()
            self.assertEqual(tool.stdout.readline(), b"1: show 9 4: 16 <= A(9,4) <= 25\n")
            tool.stdout.close()
            self.assertEqual((tool.stderr.read(), tool.wait()), (b"", 128 + signal.SIGPIPE))
            tool.stderr.close()

    def test_what_is_stopped(self):
        with tempfile.TemporaryDirectory() as folder:
            program = Path(folder) / "slow"
            program.write_text("#!/bin/sh\nprintf x >&2\nexec sleep 5 2>&-\n")
            program.chmod(0o755)
            # A test in the background may have this signal ignored, and what it starts would have, too.
            tool = started("page.py", DATA / "page/small.session", env=FAKE | {"CODE_TABLES": str(program)}, start_new_session=True,
                           preexec_fn=lambda: signal.signal(signal.SIGINT, signal.SIG_DFL))
            self.assertEqual(tool.stderr.read(1), b"x")
            tool.send_signal(signal.SIGINT)
            out, said = tool.communicate(timeout=30)
            self.assertEqual((out, said, tool.returncode), (b"", b"page: stopped\n", 128 + signal.SIGINT))

    def test_what_is_no_session(self):
        for words in ("page.py", "README.md"), ("table_data.py", "--csv", "/dev/null", "README.md"), ("cite.py", "16", "6", "README.md"):
            out, said, status = run(*words, env=FAKE)
            self.assertEqual((out, status), ("", 1))
            self.assertIn("refused: README.md is no session: its line 3, `A(n,d) is the greatest number of binary words", said)


if __name__ == "__main__":
    unittest.main()

"""A reply of a live session answers what was asked, whatever interrupts it: no bound is taken for that of another entry."""

import os
import signal
import sys
import tempfile
import threading
import unittest
from pathlib import Path
from unittest import mock

from support import TOOLS, TOP, needs_program

import code_tables
from code_tables import Bounds, Refusal, Refused, Session, live
from code_tables.fitting import Standing
from code_tables.sessions import Command

ENTRIES = {(5, 3): Bounds(4, 4), (8, 4): Bounds(16, 16), (16, 6): Bounds(32, 256), (9, 4): Bounds(16, 25), (7, 3): Bounds(16, 16)}
# A program that answers each command by the bounds of one entry, or, told to be late, by the reply to the command before.
WRONG = "import sys\nfor line in sys.stdin:\n    print({!r}, flush=True)\n"
LATE = "import sys\nlast = 'show 5 3'\nfor line in sys.stdin:\n    print('A({}) = 1'.format(','.join(last.split()[1:])), flush=True)\n    last = line\n"
SLOW = "import sys, time\nfor line in sys.stdin:\n    time.sleep(60)\n"


def setUpModule():
    """Tests that run in the background may have Ctrl-C ignored; here it counts."""
    unittest.addModuleCleanup(signal.signal, signal.SIGINT, signal.signal(signal.SIGINT, signal.default_int_handler))


class Replies(unittest.TestCase):
    def program(self, text):
        """A false program for a session."""
        folder = tempfile.TemporaryDirectory()
        self.addCleanup(folder.cleanup)
        file = Path(folder.name) / "program"
        file.write_text(f"#!{sys.executable}\n{text}")
        file.chmod(0o755)
        return mock.patch.dict(os.environ, CODE_TABLES=str(file))

    def test_a_reply_to_another_command_is_no_answer_and_ends_the_session(self):
        for text in (WRONG.format("32 <= A(16,6) <= 256"), LATE):
            with self.program(text), Session() as session:
                with self.assertRaisesRegex(Refusal, r"to `show 9 4`, and bounds of A\(9,4\) have to stand here: begin another session"):
                    session.bounds(9, 4)
                with self.assertRaisesRegex(Refusal, "the session has ended"):
                    session.bounds(16, 6)

    def test_each_reply_is_compared_with_what_was_asked(self):
        for reply, ask in [("accepted other size 2", lambda session: session.submit("pair", ["0000", "1111"])),
                           ("accepted pair size 3", lambda session: session.submit("pair", ["0000", "1111"])),
                           ("code 5 4 size 0", lambda session: session.words(5, 3)), ("withdrawn other", lambda session: session.withdraw("pair")),
                           ("derivation\nline 1 upper 5 4 value 1 by U1\ndone", lambda session: session.explain("upper", 5, 3)),
                           ("derivation\nline 1 lower 5 3 value 1 by L1\ndone", lambda session: session.explain("upper", 5, 3)),
                           ("a words 4 4 size 2\npieces 1", lambda session: session.pieces())]:
            with self.subTest(reply=reply), self.program(WRONG.format(reply)), Session() as session, self.assertRaises(Refusal) as raised:
                ask(session)
            self.assertNotIsInstance(raised.exception, Refused)

    def test_what_interrupts_a_call_ends_the_session_and_the_next_call_says_so(self):
        with self.program(SLOW), Session() as session:
            timer = threading.Timer(0.5, lambda: os.kill(os.getpid(), signal.SIGINT))
            timer.start()
            with self.assertRaises(KeyboardInterrupt):
                session.bounds(9, 4)
            for _ in range(2):
                with self.assertRaisesRegex(Refusal, "the session has ended, since its call of `show 9 4` was interrupted: begin another"):
                    session.bounds(16, 6)

    def test_a_derivation_is_of_the_bound_that_was_asked_for(self):
        derivation = ["derivation", "line 1 lower 3 4 value 1 by L1", "line 2 upper 5 3 value 4 by U5 from 1", "done"]
        standing = Standing()
        self.assertIsNone(standing.fault(Command(1, ["explain", "upper", "5", "3"]), derivation))
        for words in (["explain", "lower", "5", "3"], ["explain", "upper", "3", "4"], ["explain", "upper", "5", "4", "2"]):
            self.assertIn("has to follow", standing.fault(Command(1, words), derivation))


@needs_program
class Interrupted(unittest.TestCase):
    def interrupt(self, call, seconds):
        """Calls again and again until Ctrl-C comes."""
        timer = threading.Timer(seconds, lambda: os.kill(os.getpid(), signal.SIGINT))
        with self.assertRaises(KeyboardInterrupt):
            timer.start()
            while True:
                call()

    def test_after_ctrl_c_no_reply_is_taken_for_another(self):
        for turn in range(6):
            with Session() as session:
                self.interrupt(lambda: session.bounds(9, 4), 0.05 + turn / 50)
                try:
                    self.assertEqual(session.bounds(16, 6), Bounds(32, 256))
                except Refusal as refusal:
                    self.assertIn("was interrupted", str(refusal))

    def test_after_an_interrupted_list_no_words_are_missing(self):
        with Session() as session:
            self.interrupt(lambda: session.words(28, 4), 0.2)
            with self.assertRaisesRegex(Refusal, "its call of `list 28 4` was interrupted"):
                session.words(9, 4)

    def test_threads_get_the_replies_to_what_they_ask(self):
        right = []
        with Session() as session:
            def ask(entry):
                right.extend(entry for _ in range(300) if session.bounds(*entry) == ENTRIES[entry])
            threads = [threading.Thread(target=ask, args=(entry,)) for entry in ENTRIES]
            for thread in threads:
                thread.start()
            for thread in threads:
                thread.join()
        self.assertEqual(len(right), 300 * len(ENTRIES))

    def test_the_shared_session_says_once_that_it_ended_and_begins_again(self):
        with mock.patch.object(live, "_shared", {}):
            live.submit("pair", ["0000", "1111"], empty=True)
            with mock.patch.object(live.Session, "_exchange", side_effect=KeyboardInterrupt), self.assertRaises(KeyboardInterrupt):
                code_tables.bounds(9, 4, empty=True)
            with self.assertRaisesRegex(Refusal, "`show 9 4` was interrupted, with the 1 pieces that were submitted to it: the next call begins another"):
                code_tables.bounds(16, 6, empty=True)
            self.assertEqual(code_tables.bounds(16, 6, empty=True), Bounds(32, 256))
            live._shared[True].close()

    def test_another_process_begins_a_session_of_its_own(self):
        with Session() as session:
            child = os.fork()
            if child == 0:
                try:
                    session.bounds(5, 3)
                except Refusal as refusal:
                    os._exit(0 if "belongs to another process" in str(refusal) else 1)
                os._exit(2)
            self.assertEqual(os.waitpid(child, 0)[1], 0)
            self.assertEqual(session.bounds(5, 3), Bounds(4, 4))


@needs_program
class Asked(unittest.TestCase):
    def setUp(self):
        self.session = Session()
        self.addCleanup(self.session.close)

    def test_numbers_that_are_not_whole_are_refused(self):
        for numbers, fault in (((12.7, 4), "n is 12.7, and has to be a whole number"), ((12, "4"), "d is '4'"), ((12, 4, 2.5), "w is 2.5"), ((None, 4), "n is None")):
            for call in (self.session.bounds, self.session.words, code_tables.bounds):
                with self.assertRaisesRegex(Refusal, fault):
                    call(*numbers)
        with self.assertRaisesRegex(Refusal, "d is 4.5"):
            self.session.table(4.5)
        with self.assertRaisesRegex(Refusal, "a word has the digit 0.5"):
            self.session.submit("half", [[0.5, 1, 1], [0, 0, 1]])

    def test_a_refusal_says_what_it_means(self):
        for call, reply, meaning in [(lambda: self.session.bounds(31, 3), "entry", "names an entry that isn't in the table"),
                                     (lambda: self.session.submit("z", "kind = 'words'\nn = 4"), "field d", "that is missing"),
                                     (lambda: self.session.withdraw("none"), "nosuch none", "names an id that no piece has")]:
            with self.assertRaises(Refused) as raised:
                call()
            self.assertEqual(raised.exception.reply, reply)
            self.assertIn(meaning, str(raised.exception))

    def test_words_may_be_one_text(self):
        self.assertEqual(self.session.submit("z", "0000\n1111\n"), 2)
        self.assertEqual(self.session.submit("list", "[[0, 0, 0, 0], [1, 1, 1, 1]]", d=3, cites=["by hand"]), 2)
        with self.assertRaisesRegex(Refusal, "line 1 is no word of digits 0 and 1: .*; a text is a document, or the words themselves, one a line: give a file as"):
            self.session.submit("file", str(TOP / "examples/conference9.txt"))


class Folder(unittest.TestCase):
    def test_a_folder_is_no_program(self):
        with mock.patch.dict(os.environ, CODE_TABLES=str(TOOLS)), self.assertRaisesRegex(Refusal, f"CODE_TABLES names a folder, {TOOLS}: give it the path"):
            Session()


if __name__ == "__main__":
    unittest.main()

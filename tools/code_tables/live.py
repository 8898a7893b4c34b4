"""A live session of the program, and the functions that ask one.

    >>> session = Session()
    >>> session.bounds(16, 6)
    Bounds(lower=32, upper=256)
    >>> session.submit("six", ["1111111111", "1111000000", "1000111000", "0100100110", "0010010101", "0001001011"])
    6
    >>> session.bounds(10, 6)
    Bounds(lower=6, upper=6)
    >>> try:
    ...     session.submit("close", "0000\\n0011", d=4)
    ... except Refused as refused:
    ...     print(refused.reply)
    close 0 1 2
    >>> verify(session.explain("lower", 10, 6))
    'yes'
    >>> session.withdraw("six")
    >>> session.close()
    1

What is read is compared with what was asked: a reply names its entry, its code or its id. One command at a time is exchanged, also where several
threads use a session, and what interrupts an exchange ends the session: no reply is taken for that to another command."""

import contextlib
import os
import subprocess
import threading
from collections.abc import Iterable, Iterator, Sequence
from pathlib import Path

from . import places, program, refusals, sessions, words
from .answers import Bounds, entry_words, whole
from .fitting import Standing
from .sessions import Command, Piece, Refusal

# How many seconds a program that is ended has until it is killed.
PATIENCE = 5


class Refused(Refusal):
    """A reply of the program that is a refusal: `reply` is its text behind the word `refused`, and the error says besides what that means, by the
    sentences of docs/FORMATS.md."""

    def __init__(self, reply: str, meaning: str = "") -> None:
        super().__init__(f"{reply}: {meaning}" if meaning else reply)
        self.reply = reply


def column_words(d: int, w: int | None) -> str:
    """A column of the table as a command writes it."""
    return f"{whole('d', d)}" + ("" if w is None else f" {whole('w', w)}")


def digits_of(word: object) -> str:
    """The digits of a word, which is a text or a sequence of numbers."""
    if isinstance(word, str):
        return word
    digits = list(word)
    other = next((digit for digit in digits if digit not in (0, 1)), None)
    if other is not None:
        raise Refusal(f"a word has the digit {other!r}, and has digits 0 and 1 alone")
    return "".join(str(int(digit)) for digit in digits)


def document_of(evidence: str | Iterable[object], d: int | None, cites: Sequence[str]) -> str:
    """The document of evidence: of words, with the distance d, or with their least one, and what it cites; or the text of a document itself.
    A text without `=` is no document, and has words, one a line."""
    if isinstance(evidence, str) and ("=" in evidence or not evidence.strip()):
        if cites:
            raise Refusal("a document says itself what it cites: write it as the key cites, with format = 2")
        return evidence
    given = evidence.split("\n") if isinstance(evidence, str) else map(digits_of, evidence)
    try:
        read, n = words.read_words(given)
    except Refusal as refusal:
        if not isinstance(evidence, str):
            raise
        raise Refusal(f"{refusal}; a text is a document, or the words themselves, one a line: give a file as open(FILE)") from None
    made = words.submission("a", read, n, d=d if d is None else whole("d", d), cites=cites)
    return made.split("\nsubmit a\n", 1)[1].removesuffix("\nend\n")


class Session:
    """A session of the program, which runs until it is closed: each command is answered before the next is asked. With names of files, their
    commands come first, behind those of the library where `library` is set, and what is refused of them is in `refused`. It can stand in a
    `with`, and several threads may use it. Where a call is interrupted the session has ended, and the next call says so."""

    def __init__(self, *files: str | Path, library: bool = False) -> None:
        self._lock = threading.RLock()
        self._owner = os.getpid()
        self._standing = Standing()
        # The command whose exchange was begun and isn't finished.
        self._asked = ""
        self.refused: list[tuple[str, str]] = []
        self.submitted = 0
        texts = [sessions.read_session(file) for file in [*(found_library() if library else []), *files]]
        try:
            # In a group of its own: Ctrl-C ends the call that it interrupts, and no session that waits.
            self._process = subprocess.Popen([program.program(), "session"], stdin=subprocess.PIPE, stdout=subprocess.PIPE, process_group=0)
        except OSError as fault:
            raise Refusal(f"the program {program.program()} can't be started: {fault.strerror}") from None
        try:
            self._standing.reads_documents = False
            for text in texts:
                self._take(text)
        except BaseException:
            self._stop()
            raise
        self._standing.reads_documents = True
        self.submitted = 0

    def __enter__(self) -> "Session":
        return self

    def __exit__(self, *fault: object) -> None:
        self.close()

    def _take(self, text: str) -> None:
        """Runs a session that comes first, and keeps what is refused of it."""
        for command, reply in self.run(text):
            if reply[0].startswith("refused ") and command.words != ["ledger"]:
                self.refused.append((" ".join(command.words), reply[0].removeprefix("refused ")))

    def close(self) -> int:
        """Ends the session, and gives the number with which the program ends: 1 where some reply was a refusal."""
        with self._lock:
            if self._asked:
                self._stop()
            if not self._process.stdin.closed:
                self._process.stdin.close()
                self._process.stdout.close()
            return self._process.wait()

    def _stop(self) -> None:
        """Ends a program whose reply isn't awaited any more."""
        self._process.terminate()
        with contextlib.suppress(OSError):
            self._process.stdin.close()
        self._process.stdout.close()
        try:
            self._process.wait(PATIENCE)
        except subprocess.TimeoutExpired:
            self._process.kill()
            self._process.wait()

    def lost(self) -> str:
        """Why the session answers no more; nothing where it does. Waits for a call of another thread."""
        if os.getpid() != self._owner:
            return "the session belongs to another process"
        with self._lock:
            if self._asked:
                return f"the session has ended, since its call of `{self._asked}` was interrupted"
            if self._process.stdin.closed or self._process.poll() is not None:
                return "the session has ended"
        return ""

    def _lines(self) -> Iterator[str]:
        """The lines that the program writes, each when it is asked for."""
        for line in self._process.stdout:
            yield line.decode("utf-8", "surrogateescape").removesuffix("\n")

    def _reply(self, command: Command) -> list[str]:
        """The reply to one command, compared with what was asked. `_asked` is emptied when all is well, and only then."""
        lost = self.lost()
        if lost:
            raise Refusal(f"{lost}: begin another")
        with self._lock:
            # Another thread may have been interrupted meanwhile.
            if self._asked:
                raise Refusal(f"{self.lost()}: begin another")
            self._asked = " ".join(command.words)
            try:
                reply = self._exchange(command)
            except BaseException:
                self._stop()
                raise
            self._asked = ""
            return reply

    def _exchange(self, command: Command) -> list[str]:
        """Writes a command, and reads a reply that can be that to it."""
        try:
            self._process.stdin.write(written(command).encode("utf-8", "surrogateescape"))
            self._process.stdin.flush()
        except (BrokenPipeError, ValueError):
            raise Refusal("the session has ended: begin another") from None
        reply = sessions.read_reply(command.words, self._lines())
        if not reply:
            raise Refusal(f"the program ended with the status {self._process.wait()}, which docs/FORMATS.md explains")
        fault = self._standing.fault(command, reply)
        if fault:
            raise Refusal(f"the program answered `{reply[0]}` to `{self._asked}`, and {fault}: begin another session")
        self.submitted += reply[0].startswith("accepted ")
        return reply

    def run(self, text: str) -> list[tuple[Command, list[str]]]:
        """The commands of a text, each with the lines of its reply; a document that isn't complete is an error."""
        found = []
        for command in sessions.commands(text):
            if command.words[0] == "submit" and command.document is None:
                raise Refusal(f"line {command.line} begins a document that isn't complete")
            found.append((command, self._reply(command)))
        return found

    def ask(self, command: str) -> list[str]:
        """The lines of the reply to one command, which is a line without a document; a refusal is an error."""
        asked = sessions.words_of(command)
        if "\n" in command or not asked or command.startswith("#") or asked[0] == "submit":
            raise Refusal(f"{command!r} is no command of one line")
        return self._unless_refused(Command(1, asked))

    def _unless_refused(self, command: Command) -> list[str]:
        """The reply to a command; a refusal is an error that says what it means."""
        reply = self._reply(command)
        if reply[0].startswith("refused ") and command.words != ["ledger"]:
            said = refusals.meanings(command, reply[0], refusals.sentences())
            raise Refused(reply[0].removeprefix("refused "), "; ".join(said))
        return reply

    def submit(self, id: str, evidence: str | Iterable[object], d: int | None = None, cites: Sequence[str] = ()) -> int | None:
        """Submits evidence: a document in TOML, or the words of a code, as a text with a word a line, as texts, or as sequences of digits, with
        the distance d to state, the least where it is left out, and texts that say where the code comes from. The number of words of the piece,
        None for a dual; a refusal is an error."""
        words.check_id(id)
        document = document_of(evidence, d, cites)
        reply = self._unless_refused(Command(1, ["submit", id, "lines", str(document.count("\n") + 1)], document))
        size = sessions.words_of(reply[0])[3:]
        return int(size[0]) if size else None

    def withdraw(self, id: str) -> None:
        """Withdraws a piece."""
        self.ask(f"withdraw {id}")

    def bounds(self, n: int, d: int, w: int | None = None) -> Bounds:
        """The bounds of A(n,d), or of A(n,d,w), over the pieces that stand."""
        return Bounds(*sessions.bounds_of(self.ask(f"show {entry_words(n, d, w)}")[0])[1:])

    def table(self, d: int, w: int | None = None) -> dict[tuple[int, ...], Bounds]:
        """The bounds of all entries of a distance, and of a weight where one is given, by entry."""
        reply = self.ask(f"table {column_words(d, w)}")
        return {entry: Bounds(lower, upper) for entry, lower, upper in map(sessions.bounds_of, reply)}

    def explain(self, side: str, n: int, d: int, w: int | None = None) -> str:
        """The derivation of the `lower` or the `upper` bound of an entry, as `verify` reads it."""
        return "".join(f"{line}\n" for line in self.ask(f"explain {side} {entry_words(n, d, w)}"))

    def words(self, n: int, d: int, w: int | None = None) -> list[str]:
        """The words of a code of the entry, as many as the lower bound says, ascending."""
        return self.ask(f"list {entry_words(n, d, w)}")[1:]

    @property
    def ids(self) -> list[str]:
        """The ids of the pieces that stand, by the replies so far."""
        return list(self._standing.ids)

    def pieces(self) -> list[Piece]:
        """The pieces that stand."""
        return list(map(sessions.piece_of, self.ask("ledger")[:-1]))

    def dump(self) -> str:
        """A session that leads to the pieces that stand."""
        return "".join(f"{line}\n" for line in self.ask("dump"))


def written(command: Command) -> str:
    """A command with its document as a session has it."""
    line = " ".join(command.words) + "\n"
    if command.document is None:
        return line
    has_count = len(command.words) == 4 and command.words[2] == "lines" and sessions.number_of(command.words[3])
    return line + (command.document + "\n" if command.document or has_count else "") + ("" if has_count else "end\n")


def verify(derivation: str) -> str:
    """The verdict of the program on a derivation: `yes`, or `no` with the first line that fails and the reason."""
    return program.run(derivation, "verify").removesuffix("\n")


def found_library() -> list[str]:
    """The sessions of the library."""
    found = places.library()
    if not found:
        raise Refusal("the library isn't there: install the package from its wheel or from the repository, or ask over the empty table (empty=True)")
    return found


_shared: dict[bool, Session] = {}
_guard = threading.RLock()


def is_begun(empty: bool = False) -> bool:
    """Whether the shared session was begun."""
    return empty in _shared


def shared(empty: bool = False) -> Session:
    """The session that the functions of this module ask, over the library or over the empty table: begun when it is first asked. Where it has
    ended with something in it that was submitted, or within a call, that is said once, and it is begun again by the call after that."""
    with _guard:
        session = _shared.get(empty)
        lost = session.lost() if session else ""
        if lost:
            del _shared[empty]
            if session._asked or session.submitted:
                with_it = f", with the {session.submitted} pieces that were submitted to it" * bool(session.submitted)
                raise Refusal(f"{lost}{with_it}: the next call begins another")
        if empty not in _shared:
            _shared[empty] = Session(library=not empty)
        return _shared[empty]


def submit(id: str, evidence: str | Iterable[object], d: int | None = None, cites: Sequence[str] = (), *, empty: bool = False) -> int | None:
    """Submits evidence to the shared session: a document, or the words of a code; see Session.submit."""
    return shared(empty).submit(id, evidence, d, cites)


def explain(side: str, n: int, d: int, w: int | None = None, *, empty: bool = False) -> str:
    """The derivation of the `lower` or the `upper` bound of an entry in the shared session.

        >>> print(explain("upper", 5, 6), end="")
        derivation
        line 1 upper 5 6 value 1 by U1
        done
    """
    return shared(empty).explain(side, n, d, w)

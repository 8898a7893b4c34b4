"""What the program answered over the library when a platform wheel was built, so that a first answer need not run it over the whole library.

The file begins with the checksums of the program that wrote the answers and of the sessions that it wrote them to; below them stand the lines that
it wrote to the commands `table` of all columns. It counts only where the program that would be run and the sessions that would be read have
these checksums; else it is passed over, and the program is run. A first answer comes at once, so this imports little."""

import hashlib
import os
from collections import namedtuple
from operator import index

from . import places

HEAD = "# code_tables answers 1\n# program {}\n# sessions {}\n"


class Bounds(namedtuple("Bounds", ("lower", "upper"))):
    """A lower and an upper bound of an entry."""
    __slots__ = ()
    lower: int
    upper: int

    @property
    def is_exact(self) -> bool:
        """Whether the two are equal."""
        return self.lower == self.upper


def sum_of(*files: str | os.PathLike[str]) -> str:
    """The SHA-256 of files, one behind the other."""
    found = hashlib.sha256()
    for place in files:
        with open(place, "rb") as file:
            found.update(file.read())
    return found.hexdigest()


def head(program: str | os.PathLike[str], sessions: list[str]) -> str:
    """The first lines of the answers of a program to sessions."""
    return HEAD.format(sum_of(program), sum_of(*sessions))


# The answers that were read, by the state of the files that they were read from.
_read: dict[tuple[object, ...], str] = {}


def text() -> str:
    """The lines that the carried program wrote over the carried library; nothing where CODE_TABLES names another program, or where the file was
    made by another program or from other sessions. They are read once, and again where a file has changed."""
    program, place = places.carried_program(), places.carried_answers()
    if os.environ.get("CODE_TABLES") or program is None or not os.path.isfile(place):
        return ""
    files = [place, program, *places.library()]
    state = tuple((file, os.stat(file).st_mtime_ns, os.stat(file).st_size) for file in files)
    if state not in _read:
        _read.clear()
        with open(place, encoding="ascii", errors="replace") as file:
            told = file.read()
        expected = head(program, places.library())
        _read[state] = told.removeprefix(expected) if told.startswith(expected) else ""
    return _read[state]


def line(n: int, d: int, w: int | None = None) -> str | None:
    """The line that `show` answers for an entry over the library; None where it isn't known without the program."""
    told = text()
    at = told.find(f"A({n},{d}) " if w is None else f"A({n},{d},{w}) ")
    return told[told.rfind("\n", 0, at) + 1:].split("\n", 1)[0] if at >= 0 else None


def column(d: int, w: int | None = None) -> list[str]:
    """The lines that `table` answers for a distance and a weight over the library; none where they aren't known without the program."""
    found = {told.split("A(", 1)[1].split(")", 1)[0]: told for told in text().splitlines()}
    names = [f"{n},{d}" if w is None else f"{n},{d},{w}" for n in range(max(1, w or 1), 31)]
    return [found[name] for name in names] if all(name in found for name in names) else []


def whole(name: str, number: int) -> int:
    """A whole number; a refusal of any other."""
    try:
        return index(number)
    except TypeError:
        from .sessions import Refusal
        raise Refusal(f"{name} is {number!r}, and has to be a whole number") from None


def entry_words(n: int, d: int, w: int | None) -> str:
    """An entry as a command writes it."""
    return " ".join(str(whole(name, number)) for name, number in (("n", n), ("d", d), ("w", w)) if name != "w" or number is not None)


def bounds(n: int, d: int, w: int | None = None) -> Bounds | None:
    """The bounds of an entry over the library; None where they aren't known without the program."""
    told = line(*map(int, entry_words(n, d, w).split(" ")))
    if told is None:
        return None
    words = told.split(" ")
    return Bounds(int(words[0] if len(words) > 3 else words[-1]), int(words[-1]))

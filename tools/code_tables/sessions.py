"""A session's text as the tools see it: its commands, with their lines and documents, and the reply that belongs to each.

    >>> [c.words for c in commands("show 16 6\\n# a remark\\nsubmit a lines 1\\nkind = 'words'\\n")]
    [['show', '16', '6'], ['submit', 'a', 'lines', '1']]

docs/FORMATS.md says what the program reads and writes; nothing here decides anything about a code."""

import re
import tomllib
from collections.abc import Iterable, Iterator
from dataclasses import dataclass
from functools import cached_property
from itertools import islice
from pathlib import Path
from typing import Any, NamedTuple

# The numbers of an entry: n and d, or n, d and w.
Entry = tuple[int, ...]

# The greatest length and the greatest distance of the table.
LAST = 30

# The words with which a command of a session begins.
COMMANDS = ("submit", "withdraw", "show", "table", "explain", "list", "ledger", "dump")

# The kinds of evidence without a size: those of upper bounds.
SIZELESS = ("dual", "jdual", "odd", "jlocal")


class Refusal(ValueError):
    """What a tool refuses, by name."""


def quoted(line: str) -> str:
    """A line as a refusal shows it."""
    line = line.strip()
    return f"`{line if len(line) <= 60 else line[:57] + '...'}`"


@dataclass
class Command:
    """A command: the number of its line, from 1, its words, and the document of a submission, None where the input ends before it does."""
    line: int
    words: list[str]
    document: str | None = None
    remarks: tuple[str, ...] = ()

    @property
    def id(self) -> str:
        """The id that a `submit` or `withdraw` names, or nothing."""
        return self.words[1] if self.words[0] in ("submit", "withdraw") and len(self.words) > 1 else ""

    @cached_property
    def fields(self) -> dict[str, Any]:
        """The document as a table, empty where it is none."""
        try:
            return tomllib.loads(self.document or "")
        except (tomllib.TOMLDecodeError, RecursionError):
            return {}

    @property
    def parts(self) -> list[str]:
        """The ids that the document names."""
        fields = self.fields
        return texts_in([fields.get("part", []), fields.get("other", []), fields.get("pairs", [])])


def words_of(line: str) -> list[str]:
    """The words of a line: what stands between spaces, without one carriage return at the end."""
    return [word for word in line.removesuffix("\r").split(" ") if word]


def number_of(word: str) -> int | None:
    """The number that a word writes, or None."""
    return int(word) if re.fullmatch(r"0|[1-9][0-9]*", word) and int(word) < 2 ** 64 else None


def toml_fault(document: str) -> str:
    """Why Python reads no TOML in a document; nothing where it does."""
    try:
        tomllib.loads(document)
    except (tomllib.TOMLDecodeError, RecursionError) as fault:
        return str(fault)
    return ""


def numbers_of(words: Iterable[str]) -> Entry:
    """The numbers that words write, as an entry or a part of one; nothing of words that write none."""
    numbers = [number_of(word) for word in words]
    return () if None in numbers else tuple(number for number in numbers if number is not None)


def texts_in(value: object) -> list[str]:
    """The texts in a value of a document, in order: itself, or those in its lists."""
    if isinstance(value, str):
        return [value]
    return [text for item in value for text in texts_in(item)] if isinstance(value, list) else []


def texts_of(fields: dict[str, Any]) -> list[str]:
    """The texts of words of a document, in the order in which they are counted."""
    return texts_in([fields.get(name, []) for name in ("basis", "representatives", "words", "classes", "by", "digits")])


def size_of(fields: dict[str, Any]) -> int | None:
    """The number of words of a document's code, or None where the document alone doesn't tell it."""
    kind = fields.get("kind")
    if kind == "words":
        return len(texts_in(fields.get("words", [])))
    if kind == "partition":
        return len(texts_in(fields.get("classes", [])))
    if kind == "cosets" and len(texts_in(fields.get("basis", []))) <= LAST:
        return len(texts_in(fields.get("representatives", []))) << len(texts_in(fields.get("basis", [])))
    return None


def lines_of(text: str) -> list[str]:
    """The lines of a text; a last one may lack its line feed."""
    return text.removesuffix("\n").split("\n") if text else []


def commands(text: str) -> list[Command]:
    """The commands of a session, in order, each with the remarks that stand right above it; the head of a dump is none."""
    lines, found, at, remarks = lines_of(text), [], 0, []
    while at < len(lines):
        words = words_of(lines[at])
        if re.fullmatch(r"# dump of [0-9]+ pieces\r?", lines[at]):
            remarks = []
        elif lines[at].startswith("#"):
            remarks.append(lines[at][1:].strip())
        elif not words:
            remarks = []
        else:
            command = Command(at + 1, words, None, tuple(remarks))
            remarks = []
            if words[0] == "submit":
                at = take_document(command, lines, at + 1) - 1
            found.append(command)
        at += 1
    return found


def without_primal(command: Command) -> Command:
    """A submission whose remarks are without the numbers of a primal that the mode `find` wrote."""
    remarks = [remark for remark in command.remarks if not re.fullmatch(r"primal [0-9]+( [0-9]+:[0-9]+)*", remark)]
    return Command(command.line, command.words, command.document, tuple(remarks))


def take_document(command: Command, lines: list[str], at: int) -> int:
    """Gives a submission its document, which begins at a place, and gives the place behind it."""
    count = number_of(command.words[3]) if len(command.words) == 4 and command.words[2] == "lines" else None
    if count:
        stop = behind = at + count
    else:
        ends = (i for i in range(at, len(lines)) if lines[i].removesuffix("\r") == "end")
        stop = next(ends, len(lines) + 1)
        behind = stop + 1
    if stop <= len(lines) and (count or stop < len(lines)):
        command.document = "\n".join(lines[at:stop])
    return behind


def read_reply(words: list[str], lines: Iterator[str]) -> list[str]:
    """The lines of the reply to a command, taken from the lines that follow one by one: fewer where these end before it, and one where the
    first is of no reply to it."""
    found = list(islice(lines, 1))
    if not found or found[0].startswith("refused ") and words != ["ledger"]:
        return found
    try:
        if words == ["ledger"]:
            take_to(r"pieces [0-9]+", found, lines)
        elif words[0] == "table":
            found += islice(lines, LAST - max(1, *map(int, words[2:]), 1))
        elif words[0] == "list":
            found += islice(lines, int(words_of(found[0])[-1]))
        elif words[0] == "dump":
            for _ in range(int(words_of(found[0])[3])):
                take_document_of("submit", found, lines)
        elif words[0] == "explain":
            while take_document_of("evidence", found, lines):
                pass
            take_to("done", found, lines)
    except (IndexError, ValueError):
        pass
    return found


def take_to(pattern: str, found: list[str], lines: Iterator[str]) -> None:
    """Takes lines up to one that is of a pattern, unless the last is."""
    while not re.fullmatch(pattern, found[-1]):
        line = next(lines, None)
        if line is None:
            return
        found.append(line)


def take_document_of(word: str, found: list[str], lines: Iterator[str]) -> bool:
    """Takes a line and, where it begins a document in the form `lines K`, that: whether it does."""
    found += islice(lines, 1)
    told = re.fullmatch(word + r" \S+ lines ([1-9][0-9]*)", found[-1])
    found += islice(lines, int(told[1]) if told else 0)
    return bool(told)


def replies(session: Iterable[Command], output: str) -> Iterator[tuple[Command, list[str]]]:
    """Each command of a session with the lines of its reply; the reply is short, or empty, where the output ends before it."""
    lines, at = iter(lines_of(output)), 0
    for command in session:
        reply = read_reply(command.words, lines)
        yield command, reply
        at += len(reply)
    if next(lines, None) is not None:
        raise Refusal(f"line {at + 1} of the replies answers no command of the session: these are replies to another one")


def passed(lines: list[str], at: int, word: str, count: int | None = None) -> int:
    """The place behind documents in the form `lines K`: so many, or all that follow one another from a place on."""
    while at < len(lines) and count != 0 and (told := re.fullmatch(word + r" \S+ lines ([1-9][0-9]*)", lines[at])):
        at += 1 + int(told[1])
        count = None if count is None else count - 1
    return at


def derivations(output: str) -> list[list[str]]:
    """The derivations in replies, in order, each as its lines; a last one may lack its end. Documents of a dump are passed over."""
    lines, found, at = lines_of(output), [], 0
    while at < len(lines):
        behind = passed(lines, at, "submit")
        if behind == at and lines[at] == "derivation":
            behind = passed(lines, at + 1, "evidence")
            behind = next((i for i in range(behind, len(lines)) if lines[i] == "done"), len(lines)) + 1
            found.append(lines[at:behind])
        at = max(behind, at + 1)
    return found


def read_text(path: str | Path) -> str:
    """The text of a file."""
    try:
        return Path(path).read_bytes().decode("utf-8", "surrogateescape")
    except OSError as fault:
        raise Refusal(f"{path} can't be read: {fault.strerror}") from None


def read_session(path: str | Path) -> str:
    """The text of a session; a file that holds other lines than commands is refused."""
    text = read_text(path)
    other = next((command for command in commands(text) if command.words[0] not in COMMANDS), None)
    if other:
        raise Refusal(f"{path} is no session: its line {other.line}, {quoted(' '.join(other.words))}, is no command; give sessions, as examples/library/*.session")
    return text if not text or text.endswith("\n") else text + "\n"


def read_sessions(paths: Iterable[str | Path]) -> str:
    """The texts of sessions, one behind the other."""
    return "".join(map(read_session, paths))


def entry_of(fields: dict[str, Any]) -> Entry:
    """The entry that a document states, as numbers."""
    return tuple(fields[name] for name in ("n", "d", "w") if name in fields)


def is_entry(entry: Entry) -> bool:
    """Whether the table has an entry."""
    n, d, *w = entry
    return 1 <= n <= LAST and 3 <= d <= LAST and all(d % 2 == 0 and 0 <= weight <= n for weight in w)


def check_entry(entry: Entry) -> None:
    """Refuses what is no entry of the table."""
    if not is_entry(entry):
        raise Refusal(f"{name_of(entry)} is not in the table: A(n,d) has n from 1 to {LAST} and d from 3 to {LAST}, and A(n,d,w) besides has an even d and w at most n")


def name_of(entry: Entry) -> str:
    """An entry as replies write it."""
    return f"A({','.join(map(str, entry))})"


class Piece(NamedTuple):
    """A piece that stands: its id and kind, its entry, the number of words of its code, None for a dual, and how many texts it cites."""
    id: str
    kind: str
    entry: Entry
    size: int | None
    cites: int = 0


def piece_of(line: str) -> Piece:
    """The piece of a line of `ledger`.

        >>> piece_of("hexa words 10 6 size 6 cites 1")
        Piece(id='hexa', kind='words', entry=(10, 6), size=6, cites=1)
    """
    told = re.fullmatch(r"(\S+) (\S+) (\d+ \d+(?: \d+)?)(?: size (\d+))?(?: cites ([1-9]\d*))?", line)
    if not told:
        raise Refusal(f"no line of a piece: {line}")
    return Piece(told[1], told[2], numbers_of(told[3].split()), int(told[4]) if told[4] else None, int(told[5] or 0))


def every_table() -> list[str]:
    """The commands that show each entry of the table."""
    distances = range(3, LAST + 1)
    return [f"table {d}" for d in distances] + [f"table {d} {w}" for d in distances if d % 2 == 0 for w in range(LAST + 1)]


def bounds_of(line: str) -> tuple[Entry, int, int]:
    """The entry and the two bounds of a line that `show` writes."""
    told = re.fullmatch(r"(?:(\d+) <= )?A\((\d+(?:,\d+){1,2})\) (=|<=) (\d+)", line)
    if not told:
        raise Refusal(f"no line of bounds: {line}")
    upper = int(told[4])
    return tuple(map(int, told[2].split(","))), upper if told[3] == "=" else int(told[1]), upper

"""What new evidence improves: each entry of the table at which it has a better bound than the library, and than what is published.

The evidence is a list of words, as submit_words.py reads them, or submissions as a session has them. An id that the library has is changed, in what
names it, too. Whether a bound is better is told by the program's table before the evidence and after it; published values are those that
published.py remembers."""

import re
from collections.abc import Iterator, Sequence
from dataclasses import dataclass, field
from pathlib import Path

from . import places, published, refusals, sessions, words
from .cites import cites_of
from .live import Bounds, Session, written
from .sessions import Command, Entry, Refusal, name_of

SIDES = ("lower", "upper")


@dataclass
class Improved:
    """An entry with a better bound: the bounds before and after."""
    entry: Entry
    before: Bounds
    after: Bounds

    def sides(self) -> Iterator[tuple[str, int, int]]:
        """Each side that is better, with both values."""
        return ((side, old, new) for side, old, new in zip(SIDES, self.before, self.after) if old != new)


@dataclass
class Told:
    """What the program says of evidence: each submission with its reply, the ids that were changed, those of equal documents of the library, and
    what is better."""
    answered: list[tuple[Command, str]]
    renamed: dict[str, str]
    known: dict[str, str]
    improved: list[Improved] = field(default_factory=list)

    @property
    def refused(self) -> list[tuple[Command, str]]:
        """The submissions that are refused."""
        return [(command, reply) for command, reply in self.answered if not reply.startswith("accepted ")]

    @property
    def text(self) -> str:
        """The submissions as a session."""
        return "".join("".join(f"# {remark}".rstrip() + "\n" for remark in command.remarks) + written(command) for command, _ in self.answered)


def id_of(file: str) -> str:
    """An id from the name of a file.

        >>> id_of("codes/New Code (17,6).txt"), id_of("-"), id_of("17.txt")
        ('new-code-17-6', 'new', 'new-17')
    """
    name = re.sub("[^a-z0-9_]+", "-", Path(file).stem.lower()).strip("-_")
    return (name if re.match("[a-z]", name) else f"new-{name}" if name else "new")[:32]


def evidence_of(text: str, name: str, *, generator: bool = False, distance: int | None = None, cites: Sequence[str] = ()) -> list[Command]:
    """The submissions of a text: its own where it has some, else the one of its words."""
    found = [command for command in sessions.commands(text) if command.words[0] == "submit"]
    if not found:
        try:
            read, n = words.read_words(text.split("\n"))
        except Refusal as refusal:
            raise Refusal(f"{refusal}; give words, one a line, a list as Python or GAP prints it, or submissions") from None
        return sessions.commands(words.submission(name, read, n, generator=generator, d=distance, cites=cites))
    if generator or distance or cites:
        raise Refusal("a submission says itself what it is: --generator, --distance and --cite are for words")
    for command in found:
        if command.document is None:
            raise Refusal(f"line {command.line} begins a document that isn't complete: it ends with a line `end`")
        words.check_id(command.id)
    return found


def free_id(name: str, taken: set[str]) -> str:
    """An id that isn't taken: the name itself, or with a number behind it."""
    numbered = (f"{name[:28]}-{number}" for number in range(2, 1002))
    return name if name not in taken else next(one for one in numbered if one not in taken)


def renamed(evidence: list[Command], taken: set[str]) -> tuple[list[Command], dict[str, str]]:
    """The submissions with ids that are free, and what was changed, also where one names another."""
    changed: dict[str, str] = {}
    found = []
    for command in evidence:
        document = command.document or ""
        for old in set(command.parts) & set(changed):
            document = re.sub(rf"([\"']){re.escape(old)}\1", lambda told: told[1] + changed[old] + told[1], document)
        new = free_id(command.id, taken)
        if new != command.id:
            changed[command.id] = new
        taken.add(new)
        found.append(Command(command.line, ["submit", new, "lines", str(document.count("\n") + 1)], document, command.remarks))
    return found, changed


def whole_table(session: Session) -> dict[Entry, Bounds]:
    """The bounds of all entries."""
    lines = [line for command in sessions.every_table() for line in session.ask(command)]
    return {entry: Bounds(lower, upper) for entry, lower, upper in map(sessions.bounds_of, lines)}


def told(evidence: list[Command], files: Sequence[str]) -> Told:
    """What the program says of evidence over sessions."""
    documents = {command.document: command.id for command in sessions.commands(sessions.read_sessions(files)) if command.words[0] == "submit"}
    with Session(*files) as session:
        before = whole_table(session)
        evidence, changed = renamed(evidence, set(session.ids))
        answered = [(command, session.run(written(command))[0][1][0]) for command in evidence]
        after = whole_table(session)
    known = {command.id: documents[command.document] for command in evidence if command.document in documents}
    return Told(answered, changed, known, [Improved(entry, before[entry], after[entry]) for entry in before if before[entry] != after[entry]])


def published_bounds(entry: Entry) -> tuple[int | None, int | None]:
    """The published bounds of an entry, as far as they are known here."""
    value = published.value(*entry)
    return (value.lower, value.upper) if value else (None, None)


def is_beyond(side: str, here: int, there: int | None) -> bool:
    """Whether a bound is better than a published one."""
    return there is not None and (here > there if side == "lower" else here < there)


def compared(improved: Improved) -> Iterator[str]:
    """The lines of an entry: each side that is better, beside the published value."""
    for side, old, new in improved.sides():
        there = published_bounds(improved.entry)[SIDES.index(side)]
        beside = "not known here" if there is None else f"{there}, which it " + (
            "improves" if is_beyond(side, new, there) else "equals" if new == there else "does not reach")
        yield f"  {name_of(improved.entry)}: {side} bound {new} instead of {old} (published: {beside})"


def described(command: Command, reply: str, known: dict[str, str]) -> Iterator[str]:
    """The lines on one submission."""
    entry = name_of(sessions.entry_of(command.fields)) if command.fields else "no entry"
    if reply.startswith("accepted "):
        size = sessions.words_of(reply)[3:]
        yield f"{command.id} is accepted: {command.fields['kind']} of {entry}" + (f", {size[0]} words" if size else "")
        if command.id in known:
            yield f"  its document is that of {known[command.id]}, which the sessions have already"
    else:
        yield f"{command.id} ({entry}) is {reply}:"
        yield from places.tool("annotate").explained(command, reply, refusals.sentences())


def cited_entry(told: Told) -> Entry:
    """Of the entries that are better that of a piece itself, where it is one."""
    better = [one.entry for one in told.improved]
    return next((entry for command, _ in told.answered if (entry := sessions.entry_of(command.fields)) in better), better[0])


def next_steps(told: Told, file: str, document: str | None) -> Iterator[str]:
    """What to do with evidence that improves something."""
    yield "What to do next:"
    place = document or "new.session"
    yield f"  the document: {document} has it" if document else f"  the document: code-tables improves {file} --write {place}"
    if not all(cites_of(command.fields) for command, _ in told.answered):
        yield '  its source: it cites nothing yet; --cite "AUTHOR, TITLE, YEAR" says where words come from, and the key cites of a document'
    yield f"  the citation: code-tables cite {' '.join(map(str, cited_entry(told)))} --with {place}"
    yield f"  to report it: add {place} to examples/library in the repository of code_tables, run tools/test.py, and send both to its maintainers"
    yield "  before it is called new: look the entries up, since the published values here are remembered and may be out of date"


def lines(told: Told, file: str, document: str | None = None) -> Iterator[str]:
    """What a person reads."""
    yield from (f"the id {old} is taken, so it is {new} here" for old, new in told.renamed.items())
    for command, reply in told.answered:
        yield from described(command, reply, told.known)
    if not told.improved:
        yield "It improves no entry of the table." if len(told.refused) < len(told.answered) else "Nothing is accepted, so nothing is improved."
        return
    beyond = [one for one in told.improved for side, _, new in one.sides() if is_beyond(side, new, published_bounds(one.entry)[SIDES.index(side)])]
    yield f"It improves {len(told.improved)} entries of the table, and {len(beyond)} bounds over published values, as far as they are known here:"
    for one in told.improved:
        yield from compared(one)
    yield from next_steps(told, file, document)


def write(place: str, told: Told) -> None:
    """Writes the submissions to a new file."""
    try:
        with open(place, "x", encoding="utf-8", errors="surrogateescape") as file:
            file.write(told.text)
    except FileExistsError:
        raise Refusal(f"{place} is there already and stays as it is: give --write a new name") from None

"""Whether replies can be those to the commands of a session: what no program can have answered is told by a sentence.

It judges forms, ids, entries, sizes, cites and counts, and no bound and no code: those are the program's."""

import re
from collections.abc import Sequence

from .cites import cites_of
from .sessions import COMMANDS, LAST, SIZELESS, Command, Entry, bounds_of, name_of, numbers_of, piece_of, size_of, texts_of

# The lines of a reply.
Lines = Sequence[str]
# The refusals, by their first word, that name a place among the words of the document, and how many places they name.
PLACES = {"weight": 1, "digits": 1, "repeated": 2, "close": 2}


class Standing:
    """The pieces that stand as the replies say, ids in order; `fault` takes the replies one by one. Where `reads_documents` isn't set, an
    acceptance is compared with the id of its submission, and not with the document, which takes long to read where it is long."""

    def __init__(self) -> None:
        self.ids: list[str] = []
        self.submitted: dict[str, Command] = {}
        self.reads_documents = True

    def fault(self, command: Command, reply: Lines) -> str | None:
        """Why a reply can't be that to a command here; None where it can."""
        if reply[0].startswith("refused ") and command.words != ["ledger"]:
            return self.refused(command, reply[0].split(" ")[1:])
        judge = getattr(self, command.words[0], None) if command.words[0] in COMMANDS else None
        return judge(command, reply) if judge else "the command is none, and can only be refused"

    def refused(self, command: Command, words: Lines) -> str | None:
        """Of a refusal, by its words."""
        fault, rest = words[0], words[1:]
        is_submission = command.words[0] == "submit"
        if not is_submission and fault not in ("command", "entry", "nosuch", "inuse"):
            return "only a submission is refused so"
        if fault == "taken" and command.id not in self.ids:
            return f"no piece has the id {command.id}"
        if fault in PLACES and is_submission:
            count = len(texts_of(command.fields)) if fault in ("weight", "digits") else size_of(command.fields)
            places = [int(word) for word in rest[:PLACES[fault]] if word.isdecimal()]
            if count is not None and any(place >= count for place in places):
                return f"the document has {count} words, counted from 0"
        if fault in ("nosuch", "part") and is_submission and command.fields and rest[:1] and rest[0] not in command.parts:
            return f"the document names no {rest[0]}"
        if fault == "inuse" and (rest[:1] == [] or rest[0] not in self.ids):
            return "no such piece stands"
        if fault == "nosuch" and not is_submission and rest != [command.id]:
            return f"the command names {command.id}"
        return None

    def submit(self, command: Command, reply: Lines) -> str | None:
        """Of a submission."""
        told = re.fullmatch(r"accepted (\S+)(?: size (\d+))?", reply[0])
        if not told:
            return "a submission is accepted or refused"
        if told[1] != command.id:
            return f"the submission is {command.id}"
        if command.document is None:
            return "the document isn't complete"
        if told[1] in self.ids:
            return "a piece of this id stands"
        fault = self.size_fault(command, told[2]) if self.reads_documents else None
        if fault is None:
            self.ids.append(told[1])
            self.submitted[told[1]] = command
        return fault

    def size_fault(self, command: Command, told: str | None) -> str | None:
        """Why a document's code can't have the size that is told."""
        kind, size = command.fields.get("kind"), size_of(command.fields)
        if kind and (kind in SIZELESS) != (told is None):
            return "a dual has no size, and every other piece has one"
        return f"the document has {size} words" if size is not None and told != str(size) else None

    def withdraw(self, command: Command, reply: Lines) -> str | None:
        """Of a withdrawal."""
        if command.words[2:] == ["all"]:
            return self.withdraw_all(command, reply)
        if reply != [f"withdrawn {command.id}"]:
            return f"the command withdraws {command.id}"
        if command.id not in self.ids:
            return "no such piece stands"
        self.ids.remove(command.id)
        return None

    def withdraw_all(self, command: Command, reply: Lines) -> str | None:
        """Of a withdrawal with all that rests on the piece."""
        if command.id not in self.ids:
            return "no such piece stands"
        gone = [command.id]
        for id in self.ids:
            if any(part in gone for part in self.submitted[id].parts):
                gone.append(id)
        if reply != [f"withdrawn {command.id} count {len(gone)}"]:
            return f"the command takes {len(gone)} pieces out: {' '.join(gone)}"
        self.ids = [id for id in self.ids if id not in gone]
        return None

    def show(self, command: Command, reply: Lines) -> str | None:
        """Of the bounds of an entry."""
        return entries_fault([numbers_of(command.words[1:])], reply)

    def table(self, command: Command, reply: Lines) -> str | None:
        """Of the bounds of a column."""
        numbers = numbers_of(command.words[1:])
        return entries_fault([(n, *numbers) for n in range(max(1, *numbers[1:], 1), LAST + 1)], reply)

    def list(self, command: Command, reply: Lines) -> str | None:
        """Of the words of a code."""
        told = re.fullmatch(r"code ((?:\d+ )+)size (\d+)", reply[0])
        numbers = numbers_of(command.words[1:])
        if not told or numbers_of(told[1].split()) != numbers:
            return f"the command asks for a code of {name_of(numbers)}"
        if len(reply) != 1 + int(told[2]) or not all(re.fullmatch("[01]{%d}" % numbers[0], line) for line in reply[1:]):
            return f"{told[2]} words of length {numbers[0]} have to follow"
        return None

    def explain(self, command: Command, reply: Lines) -> str | None:
        """Of a derivation: its last line is that of the bound."""
        side, numbers = command.words[1], numbers_of(command.words[2:])
        told = re.fullmatch(r"line \d+ (lower|upper) ((?:\d+ )+)value \d+ by .*", reply[-2]) if len(reply) > 2 else None
        if reply[0] != "derivation" or reply[-1] != "done" or not told or (told[1], numbers_of(told[2].split())) != (side, numbers):
            return f"a derivation of the {side} bound of {name_of(numbers)} has to follow"
        return None

    def ledger(self, command: Command, reply: Lines) -> str | None:
        """Of the list of pieces."""
        told = [line.split(" ")[0] for line in reply[:-1]]
        if reply[-1] != f"pieces {len(self.ids)}" or told != self.ids:
            return f"{len(self.ids)} pieces stand: {' '.join(self.ids)}"
        return next(filter(None, map(self.piece_fault, reply[:-1])), None)

    def piece_fault(self, line: str) -> str | None:
        """Why a line can't be that of a piece that stands."""
        try:
            piece = piece_of(line)
        except ValueError:
            return f"the line of a piece has to stand here, and not: {line}"
        fields = self.submitted[piece.id].fields
        cites = len(cites_of(fields)) if fields else None
        return None if cites in (None, piece.cites) else f"{piece.id} cites {cites} texts"

    def dump(self, command: Command, reply: Lines) -> str | None:
        """Of a dump."""
        return None if reply[0] == f"# dump of {len(self.ids)} pieces" else f"{len(self.ids)} pieces stand"


def entries_fault(entries: Sequence[Entry], reply: Lines) -> str | None:
    """Why lines aren't the bounds of these entries."""
    for entry, line in zip(entries, reply):
        try:
            if bounds_of(line)[0] == entry:
                continue
        except ValueError:
            pass
        return f"bounds of {name_of(entry)} have to stand here"
    return None if len(reply) == len(entries) else f"bounds of {len(entries)} entries have to stand here"

"""What the refusals of the program mean, by the sentences of docs/FORMATS.md, which tools/refusals.json holds.

    >>> meanings(Command(1, ["show", "31", "3"]), "refused lead", sentences())
    ['c_0 of a dual is 0']
"""

import json
import re
from pathlib import Path

from . import places
from .sessions import Command, read_text

# The pattern of a refusal, with its sentence.
Known = list[tuple[str, str]]


def _pattern(refusal: str) -> str:
    """The pattern of a refusal, in which a word in capitals means any word."""
    return " ".join(r"\S+" if word.isupper() else re.escape(word) for word in refusal.split())


def sentences(file: str | Path | None = None) -> Known:
    """The patterns of a session's refusals with their sentences, from tools/refusals.json or another file."""
    rows = json.loads(read_text(file or Path(places.tools(), "refusals.json")))
    return [(_pattern(row["refused"]), row["where"].replace("`", "")) for row in rows]


def meanings(command: Command, reply: str, known: Known) -> list[str]:
    """The sentences on a refusal: of two that have one text, those on a withdrawal are for a withdrawal."""
    said = [sentence for pattern, sentence in known if re.fullmatch(pattern, reply.removeprefix("refused "))]
    of_withdrawals = command.words[0] == "withdraw"
    return [sentence for sentence in said if ("withdraw" in sentence) == of_withdrawals] or said

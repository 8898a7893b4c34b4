"""What the program's table holds over the pieces of a session: bounds, the pieces with their documents and sources, and what a bound rests on.

Used by page.py, table_data.py and cite.py, which only show it: each number here is one that the program wrote. Published values are those of
code_tables.published. The sentences of the rules are in tools/rules.json, which a test compares with docs/RULES.md."""

import hashlib
import json
from dataclasses import dataclass, field
from functools import cache
from pathlib import Path

from code_tables import cites, program, published, sessions
from code_tables.sessions import LAST, Refusal

LENGTHS = range(1, LAST + 1)
DISTANCES = range(3, LAST + 1)
EVEN = range(4, LAST + 1, 2)
SIDES = ("lower", "upper")
# How many explanations are asked for in one session: they are as long as the documents that they rest on.
AT_ONCE = 500


@dataclass
class Derivation:
    """A derivation as `explain` writes it: the ids of its evidence, and its lines without that."""
    ids: list
    lines: list

    @property
    def rule(self):
        """The rule of its last line."""
        words = self.lines[-1].split(" ")
        return words[words.index("by") + 1]


@dataclass
class Piece:
    """A piece of evidence: its id and kind, its entry, the number of words of its code, the ids of its parts, the remarks above its submission,
    the texts that its document cites, its title and its document."""
    id: str
    kind: str
    entry: tuple
    size: int | None
    parts: list
    remarks: list
    cites: list
    title: str
    document: str

    @property
    def sources(self):
        """Where it is from: what it cites, then the remarks."""
        return self.cites + self.remarks


@dataclass
class Held:
    """What the program answered: bounds by entry, pieces by id, derivations by side and entry; and what it was answered to."""
    bounds: dict = field(default_factory=dict)
    pieces: dict = field(default_factory=dict)
    derivations: dict = field(default_factory=dict)
    refused: list = field(default_factory=list)
    session_hash: str = ""


def entries():
    """All entries of the table, in order: those without weight first."""
    return [(n, d) for n in LENGTHS for d in DISTANCES] + [(n, d, w) for n in LENGTHS for d in EVEN for w in range(n + 1)]


def is_trivial(entry):
    """Whether an entry is 1 because no two words are far enough apart."""
    n, d, w = (*entry, None)[:3]
    return d > n if w is None else d > 2 * min(w, n - w)


@cache
def rules():
    """The rows of the rules, as tools/rules.json has them, by rule."""
    found = {}
    for row in json.loads(Path(__file__).with_name("rules.json").read_text("utf-8")):
        found.setdefault(row["rule"], []).append(row)
    return found


def rule_row(rule, entry):
    """What a rule says at an entry: where, what and why. Two rules say it in several cases."""
    n, d = entry[:2]
    at = {"L8": int(d > 4), "U2": 2 * (d % 2) + int(n == 2 * d + d % 2)}.get(rule, 0)
    return rules()[rule][at]


def standings(entry, bounds):
    """How both bounds of an entry compare with the published ones, in words: where they coincide, nothing better is possible."""
    told = published.value(*entry)
    return tuple("proved here" if bounds[0] == bounds[1] else published.standing(side, here, told) for side, here in zip(SIDES, bounds))


read_sessions = sessions.read_sessions
ask_all = sessions.every_table


def held(text, more):
    """What stands at the end of a session, as the program answers to it and to more commands: `table`, `show` and `explain`."""
    before = sessions.commands(text)
    if any(command.document is None and command.words[0] == "submit" for command in before):
        raise Refusal("the session ends within a document")
    found = Held(session_hash=hashlib.sha256(text.encode("utf-8", "surrogateescape")).hexdigest())
    asked = [command for command in more if not command.startswith("explain ")]
    explained = [command for command in more if command.startswith("explain ")]
    first, *later = [explained[at:at + AT_ONCE] for at in range(0, len(explained), AT_ONCE)] or [[]]
    answered = list(answers(with_commands(text, [*asked, *first, "ledger"])))
    submitted = {}
    for command, reply in answered[:len(before)]:
        if reply[0].startswith("accepted "):
            submitted[command.id] = sessions.without_primal(command)
        elif reply[0].startswith("refused ") and command.words != ["ledger"]:
            found.refused.append((command, reply[0]))
    for line in answered.pop()[1][:-1]:
        piece = piece_of(line, submitted)
        found.pieces[piece.id] = piece
    take(found, answered[len(before):])
    for commands in later:
        take(found, list(answers(with_commands(text, commands)))[len(before):])
    return found


def with_commands(text, commands):
    """A session with more commands."""
    return text + "".join(f"{command}\n" for command in commands)


def take(found, answered):
    """Takes the bounds and the derivations that answer commands."""
    for command, reply in answered:
        if command.words[0] == "explain":
            take_explanation(found, command, reply)
        else:
            found.bounds.update((entry, (low, high)) for entry, low, high in map(sessions.bounds_of, reply))


def answers(text):
    """Each command of a session with the program's reply."""
    for command, reply in sessions.replies(sessions.commands(text), program.run(text)):
        if not reply:
            raise Refusal("the program's replies end before the session does")
        yield command, reply


def take_explanation(found, command, reply):
    """Takes the derivation that answers a command, where the program gives one."""
    if not reply[0].startswith("refused "):
        ids, at = [], 1
        while (behind := sessions.passed(reply, at, "evidence", 1)) > at:
            ids.append(reply[at].split(" ")[1])
            at = behind
        found.derivations[command.words[1], tuple(map(int, command.words[2:]))] = Derivation(ids, reply[at:-1])


def piece_of(line, submitted):
    """The piece of a line of `ledger`, with what its document cites and what stands above its submission."""
    told = sessions.piece_of(line)
    command = submitted[told.id]
    remarks, texts = list(command.remarks), cites.cites_of(command.fields)
    title = first_sentence(" ".join(remarks)) or next(iter(texts), told.id)
    return Piece(told.id, told.kind, told.entry, told.size, list(dict.fromkeys(command.parts)), remarks, texts, title, command.document)


def cited(pieces):
    """What pieces cite, in order, each text once."""
    return list(dict.fromkeys(text for piece in pieces for text in piece.cites))


def first_sentence(text):
    """A text up to the first full stop, colon or semicolon that no bracket encloses and a blank or nothing follows.

    >>> first_sentence("Golay's code (Witt 1938; Golay 1949): twelve shifts.")
    "Golay's code (Witt 1938; Golay 1949)"
    """
    depth = 0
    for at, sign in enumerate(text):
        depth += (sign == "(") - (sign == ")")
        if depth <= 0 and sign in ".:;" and text[at + 1:at + 2] in ("", " "):
            return text[:at]
    return text


def resting(found, ids):
    """The pieces of the ids, with those that they are built of, in ledger order."""
    wanted, left = set(), list(ids)
    while left:
        name = left.pop()
        if name not in wanted:
            wanted.add(name)
            left += found.pieces[name].parts
    return [piece for piece in found.pieces.values() if piece.id in wanted]

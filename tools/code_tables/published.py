"""Published bounds, as they are remembered: published.json beside this file has them, and nothing could be looked up.

    >>> value(20, 8).upper, value(19, 7).technique
    (256, 'semidefinite programming with quadruples of words')
    >>> value(24, 10, 16).lower
    69
    >>> print(value(24, 8, 8))
    None

None means that no published value is known here. The program reads nothing of this."""

import json
from dataclasses import dataclass
from functools import cache
from pathlib import Path
from typing import Any

from .sessions import Entry

REMEMBERED = "Published values are remembered, and none of them could be looked up."
UNKNOWN = "not known here"
# The greatest length to which published values are remembered.
LONGEST = 28


@dataclass(frozen=True)
class Value:
    """The published bounds of an entry; the technique and the source are those of the upper bound. What isn't known here is None."""
    lower: int | None = None
    upper: int | None = None
    technique: str | None = None
    source: str | None = None
    note: str | None = None


@cache
def _file() -> dict[str, Any]:
    return json.loads(Path(__file__).with_name("published.json").read_text("utf-8"))


def _entry(row: dict[str, Any]) -> Entry:
    return tuple(row[name] for name in ("n", "d", "w") if name in row)


@cache
def values() -> dict[Entry, Value]:
    """All published bounds that are known here, by entry: those of even d, and with w at most n/2."""
    return {_entry(row): Value(**{name: told for name, told in row.items() if name not in ("n", "d", "w")}) for row in _file()["values"]}


def unknown() -> list[Entry]:
    """The open entries of the library of which no published value is known here, of even d, and with w at most n/2."""
    return [tuple(row) for row in _file()[UNKNOWN]]


def same(n: int, d: int, w: int | None = None) -> Entry:
    """The entry to which one is equal: for odd d that of n+1 and d+1, for w above n/2 that of n-w, else itself.

        >>> same(15, 5), same(24, 8, 16)
        ((16, 6), (24, 8, 8))
    """
    return (n + d % 2, d + d % 2) if w is None else (n, d, min(w, n - w))


def value(n: int, d: int, w: int | None = None) -> Value | None:
    """The published bounds of A(n,d) or A(n,d,w), or of the entry to which it is equal."""
    return values().get(same(n, d, w))


def standing(side: str, here: int, told: Value | None) -> str:
    """How a bound of a side, `lower` or `upper`, compares with the published one.

        >>> standing("upper", 279, value(20, 8))
        'published only, by semidefinite programming with quadruples of words'
        >>> standing("lower", 256, value(20, 8)), standing("lower", 20480, value(25, 6)), standing("upper", 13, value(24, 8, 8))
        ('proved here', 'proved here, above what is remembered: unconfirmed', 'not known here')
    """
    there = getattr(told, side) if told else None
    if there is None:
        return UNKNOWN
    if side == "lower":
        return "published only" if here < there else "proved here" + ", above what is remembered: unconfirmed" * (here > there)
    if here <= there:
        return "proved here" + ", below what is remembered: unconfirmed" * (here < there)
    return f"published only, by {told.technique}" if told.technique else "published only, the technique is not remembered"

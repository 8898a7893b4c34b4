"""What a document of evidence cites: texts that say where it comes from, as the keys `format` and `cites` of docs/FORMATS.md.

    >>> print(citing("kind = 'words'", ["D. Julin, Two improved block codes, 1965"]))
    format = 2
    cites = ["D. Julin, Two improved block codes, 1965"]
    kind = 'words'
    >>> citing("kind = 'words'", [])
    "kind = 'words'"

The program reads cites as texts, and decides nothing by them."""

import unicodedata
from collections.abc import Sequence
from typing import Any

from .sessions import Refusal, quoted, texts_in

# How many cites a document may have, and how many bytes each.
MOST_CITES, LONGEST_CITE = 16, 200


# Letters and signs that have no ASCII sign inside, as ASCII writes them.
WRITTEN = {"ø": "o", "Ø": "O", "æ": "ae", "Æ": "Ae", "œ": "oe", "Œ": "Oe", "ß": "ss", "ł": "l", "Ł": "L", "đ": "d", "Đ": "D", "ı": "i", "þ": "th", "Þ": "Th",
           "–": "-", "—": "-", "−": "-", "‐": "-", "‘": "'", "’": "'", "“": '"', "”": '"', "…": "...", "\u00a0": " ", "\u202f": " ", "≤": "<=", "≥": ">=", "·": "*"}


def ascii_cite(text: str) -> str:
    """A text as a document can cite it, in printable ASCII: a letter loses its mark, and blanks of all kinds become one.

        >>> ascii_cite("P. R. J. Östergård, T. Łuczak 1999–2001")
        'P. R. J. Ostergard, T. Luczak 1999-2001'

    A letter that has no such form is refused. Whoever changes a text by it says so."""
    plain = "".join(WRITTEN.get(sign, sign) for sign in unicodedata.normalize("NFC", text))
    bare = " ".join("".join(sign for sign in unicodedata.normalize("NFKD", plain) if not unicodedata.combining(sign)).split())
    other = next((sign for sign in bare if not " " <= sign <= "~"), None)
    if other is not None:
        raise Refusal(f"a cite has printable ASCII alone, and {ascii(other)} has no form in it: write {quoted(text)} in Latin letters")
    return bare


def check_cites(texts: Sequence[str]) -> None:
    """Refuses what no document can cite: each text is named by its number, from 1 on."""
    if isinstance(texts, str):
        raise Refusal("cites are a list of texts, and this is one text")
    if len(texts) > MOST_CITES:
        raise Refusal(f"{len(texts)} cites, and a document has at most {MOST_CITES}")
    for number, text in enumerate(texts, 1):
        if not text:
            raise Refusal(f"cite {number} is empty")
        size = len(text.encode("utf-8", "surrogateescape"))
        if size > LONGEST_CITE:
            raise Refusal(f"cite {number} has {size} bytes, and a cite has at most {LONGEST_CITE}: {quoted(text)}")
        other = next((sign for sign in text if not " " <= sign <= "~"), None)
        if other is not None:
            raise Refusal(f"cite {number} has the sign {ascii(other)}, and a cite has printable ASCII alone: {quoted(text)}")


def listed_cites(texts: Sequence[str]) -> str:
    """The key with a list of cites."""
    shown = ['"' + text.replace("\\", "\\\\").replace('"', '\\"') + '"' for text in texts]
    line = f"cites = [{', '.join(shown)}]"
    return line if len(shown) == 1 or len(line) <= 100 else "cites = [\n  " + ",\n  ".join(shown) + "]"


def citing(document: str, texts: Sequence[str]) -> str:
    """A document that cites nothing, as one that cites these texts; itself where there are none."""
    check_cites(texts)
    return f"format = 2\n{listed_cites(texts)}\n{document}" if texts else document


def cites_of(fields: dict[str, Any]) -> list[str]:
    """What a document cites, by its fields: nothing where it isn't of format 2."""
    return texts_in(fields.get("cites", [])) if fields.get("format") == 2 else []

"""The works that are cited, from bibliography.toml: their texts, which of them a text names, and their entries of BibTeX.

    >>> works()["Golay 1949"].cite()
    'M. J. E. Golay, Notes on digital coding, Proc. IRE 37 (1949), 657'
    >>> [work.name for work in named("balls about the words; Johnson 1962; MacWilliams and Sloane, ch. 17, sec. 3")]
    ['Johnson 1962', 'MacWilliams and Sloane 1977']
    >>> cited("A code as large: A. Laaksonen and P. R. J. Ostergard 2014").name
    'Laaksonen and Östergård 2014'
    >>> latex("Östergård & Müller, 50% of {x}_2")
    '{\\\\"O}sterg{\\\\aa}rd \\\\& M{\\\\"u}ller, 50\\\\% of \\\\{x\\\\}\\\\_2'
"""

import re
import tomllib
import unicodedata
from dataclasses import dataclass
from functools import cache
from pathlib import Path

from .cites import ascii_cite

# How LaTeX writes the marks of letters, by the names of their signs, and letters and signs by themselves.
MARKS = {"\u0300": "`", "\u0301": "'", "\u0302": "^", "\u0303": "~", "\u0304": "=", "\u0306": "u ", "\u0307": ".", "\u0308": '"', "\u030b": "H ", "\u030c": "v ",
         "\u0327": "c ", "\u0328": "k "}
SIGNS = {"\\": r"{\textbackslash}", "^": r"\^{}", "~": r"\~{}", **{sign: "\\" + sign for sign in "&%$#_{}"},
         "å": r"{\aa}", "Å": r"{\AA}", "ø": r"{\o}", "Ø": r"{\O}", "æ": r"{\ae}", "Æ": r"{\AE}", "ß": r"{\ss}", "ł": r"{\l}", "Ł": r"{\L}", "ı": r"{\i}",
         "–": "--", "—": "---", "‘": "`", "’": "'", "“": "``", "”": "''", "≤": r"$\le$", "≥": r"$\ge$", "−": "$-$", "·": r"$\cdot$", "<": r"{\textless}", ">": r"{\textgreater}"}


@dataclass(frozen=True)
class Work:
    """A work by the name that it is cited by: its authors, and its year, title, journal or publisher where they are known here."""
    name: str
    author: tuple[str, ...]
    year: int
    title: str = ""
    journal: str = ""
    volume: int | None = None
    pages: str = ""
    publisher: str = ""
    also: str = ""

    @property
    def key(self) -> str:
        """Its key in BibTeX, and the end of the name of its place on a page."""
        return "-".join(re.findall(r"[a-z0-9]+", re.sub(r"\band\b", "", ascii_cite(self.name).lower())))

    def text(self) -> str:
        """It as a list of works has it."""
        authors = " and ".join(filter(None, [", ".join(self.author[:-1]), self.author[-1]]))
        if self.journal:
            where = f"{self.journal} {self.volume} ({self.year})"
        else:
            where = f"{self.publisher} {self.year}" if self.publisher else f"{self.year}" if self.title else ""
        first = authors if self.title else f"{authors} {self.year}"
        return ", ".join(filter(None, [first, self.title, where, self.pages]))

    def cite(self) -> str:
        """It as a document of evidence cites it."""
        return ascii_cite(self.text())

    def bibtex(self) -> str:
        """Its entry of BibTeX."""
        kind = "article" if self.journal else "book" if self.publisher else "misc"
        fields = {"author": " and ".join(map(latex, self.author)), "title": f"{{{latex(self.title)}}}" if self.title else "", "journal": latex(self.journal),
                  "publisher": latex(self.publisher), "volume": self.volume or "", "year": self.year, "pages": latex(self.pages.replace("-", "–")),
                  "note": "" if self.title else "Its title is not recorded in code\\_tables"}
        return entry(kind, self.key, fields)


@cache
def works() -> dict[str, Work]:
    """All works, by name."""
    read = tomllib.loads(Path(__file__).with_name("bibliography.toml").read_text("utf-8"))
    return {name: Work(name, tuple(fields.pop("author")), **fields) for name, fields in read.items()}


def named(text: str) -> list[Work]:
    """The works that a text names, in the order in which it does."""
    found = {}
    for work in works().values():
        for name in filter(None, (work.name, work.also)):
            for told in re.finditer(rf"(?<!, )(?<! and )\b{re.escape(name)}\b", text):
                found.setdefault(work.name, (told.start(), work))
    return [work for _, work in sorted(found.values(), key=lambda pair: pair[0])]


def cited(text: str) -> Work | None:
    """The work that a text of a document cites, or None."""
    return next((work for work in works().values() if work.cite() in text), None)


def latex(text: str) -> str:
    """A text as LaTeX reads it, in ASCII."""
    return "".join(map(_sign, unicodedata.normalize("NFC", text)))


def _sign(sign: str) -> str:
    if sign in SIGNS or sign.isascii():
        return SIGNS.get(sign, sign)
    letter, *marks = unicodedata.normalize("NFD", sign)
    if len(marks) == 1 and marks[0] in MARKS and letter.isascii():
        return f"{{\\{MARKS[marks[0]]}{letter}}}"
    return ascii_cite(sign)


def entry(kind: str, key: str, fields: dict[str, object]) -> str:
    """An entry of BibTeX with the fields that aren't empty, whose texts are LaTeX."""
    return f"@{kind}{{{key},\n" + ",\n".join(f"  {name} = {{{told}}}" for name, told in fields.items() if told != "") + "\n}\n"

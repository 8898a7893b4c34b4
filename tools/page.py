#!/usr/bin/env python3
"""Writes the whole table over a library as one page that stands alone.

    tools/page.py examples/library/*.session > table.html

The sessions are run one behind the other. The page begins with the tables of A(n,d) and of A(n,d,w) for each d: each cell has an anchor, as each
entry of the table has one (`#a16-6`, `#a15-5`, `#a24-8-16`), and leads to its entry (`#b16-6`): its bounds beside the published ones, and why each
holds, step by step back to the pieces of evidence, with what these cite and their documents. A browser without JavaScript shows an entry, a
piece and a rule where it is led to them; with it, the derivation is shown line by line with what each rule says, and documents, which are compressed
within the page, when they are asked for. On paper an entry that is open is printed alone, else the tables. With --csv FILE and --json FILE all
entries are written beside it as data (tools/table_data.py says how), and the page links to them; with --words FOLDER the words of each code of at
most 16,384 words, a file each. Else the page asks for nothing from elsewhere. With --found FILE, what the mode `find` wrote, it is said of each bound
by a dual whether the dual is the least of its form (tools/least.py). A refused submission is said on the page and on standard error, and ends with 1."""

import argparse
import base64
import gzip
import html
import json
import re
import sys
from dataclasses import dataclass
from pathlib import Path

import least
import table
import table_data
import words_of_pieces
from code_tables import about, bibliography, provenance, published
from code_tables.ending import ended
from code_tables.sessions import Refusal, name_of
from table import SIDES, is_trivial

HERE = Path(__file__).resolve().parent
CLOSE = 1.1
MOST_WORDS = 16384
SIGN = {"lower": "≥", "upper": "≤"}
DARK = ("color-scheme: dark; --ground: #10181b; --ink: #e6eef0; --quiet: #a3b3b9; --faint: #83939a; --accent: #8fc7d6; --head: #19252a; --close: #1a3037; "
        "--wide: #234750; --line: #33454c; --text: #162126;")


def style():
    """The page's style, with its dark colours where the system or the reader chose them."""
    dark = f":root[data-theme=dark] {{ {DARK} }}\n@media screen and (prefers-color-scheme: dark) {{ :root:not([data-theme=light]) {{ {DARK} }} }}"
    return (HERE / "page.css").read_text("utf-8").replace("DARK", dark, 1)


def anchor(entry):
    """The end of the names of an entry's places."""
    return "-".join(map(str, entry))


def gap(low, high):
    """How far apart two bounds are, in a word."""
    return "exact" if low == high else "close" if high <= CLOSE * low else "wide"


def said(entry, low, high):
    """The bounds of an entry as `show` writes them."""
    return f"{name_of(entry)} = {low}" if low == high else f"{low} ≤ {name_of(entry)} ≤ {high}"


def typeset(text, has_variables=False):
    """A text as HTML: what is between backticks as code, powers and indices raised and lowered, letters of a formula in italics."""
    text = html.escape(text, quote=False).replace("..", "…")
    if has_variables:
        text = re.sub(r"(?<![A-Za-z`&'])(wM|nq|qr|[b-zA-Zδ])(?=_|(?![\w`]))", r"<i>\1</i>", text)
    text = re.sub(r"`([^`]*)`", r"<code>\1</code>", text)
    text = re.sub(r"\^\(([^()]*)\)|\^(\w+|<i>\w</i>)", lambda told: f"<sup>{told[1] or told[2]}</sup>", text)
    return re.sub(r"((?<!\w)[A-Za-z]|</i>)_(?:\(([^()]*)\)|(\d+|[a-z]\b|<i>\w</i>))", lambda told: f"{told[1]}<sub>{told[2] or told[3]}</sub>", text)


def formula(text):
    """The name of a table, as A(n,d), as HTML."""
    return typeset(text, has_variables=True)


def with_works(told):
    """A text of HTML in which each work that it names leads to the list of works."""
    for work in bibliography.named(told):
        name = next(name for name in (work.name, work.also) if name and name in told)
        told = told.replace(name, f'<a href="#w-{work.key}">{name}</a>', 1)
    return told


def turned(entry):
    """The entry with each digit turned, A(n,d,n-w), or nothing where it is the same."""
    n, d, w = (*entry, None)[:3]
    return None if w is None or 2 * w == n else (n, d, n - w)


def shown_plain(distances):
    """The entries of a table without weight, by distance."""
    return [(n, d) for d in distances for n in table.LENGTHS]


def shown_weighted(d):
    """The entries of the table of a distance, the greater weights left out: A(n,d,w) = A(n,d,n-w)."""
    return [(n, d, w) for n in table.LENGTHS if n >= d for w in range(d // 2, n // 2 + 1)]


ODD = [d for d in table.DISTANCES if d % 2]


def shown():
    """All entries that have a cell."""
    return shown_plain(table.EVEN) + shown_plain(ODD) + [entry for d in table.EVEN for entry in shown_weighted(d)]


def is_unconfirmed(entry, bounds):
    """Whether a bound is better than the one that is remembered as published."""
    return any("unconfirmed" in told for told in table.standings(entry, bounds))


def is_behind(entry, bounds):
    """Whether a better bound is remembered as published."""
    return any(told.startswith("published only") for told in table.standings(entry, bounds))


def compared(entry, bounds):
    """The sentences that set the bounds of an entry beside the published ones."""
    told = published.value(*entry)
    if bounds[0] == bounds[1]:
        return ["Exact, and proved here: no better bound is possible."]
    if not told:
        return [f"Published values: {published.UNKNOWN}."]
    lines = []
    for side, here, standing in zip(SIDES, bounds, table.standings(entry, bounds)):
        there = getattr(told, side)
        if standing.startswith("published only"):
            source = f" ({told.source})" if side == "upper" and told.source else ""
            lines.append(f"{SIGN[side]} {here} is proved here. {standing.capitalize()}{source}: {SIGN[side]} {there}, as remembered.")
        else:
            remembered = "" if there in (None, here) else f" {there} is remembered as published."
            lines.append(f"{SIGN[side]} {here}: {standing}.{remembered}")
    return lines + ([f"Before it: {told.note}."] if told.note else [])


# How a cell is read.
KEY = ('<p class="key"><span><b class="exact">256</b>exact</span><span><b class="close">1024<br>1100</b>open: lower and upper bound, at most '
       f'{round(100 * CLOSE - 100)} % apart</span><span><b class="wide">20<br>40</b>open, further apart</span><span><b class="wide behind">60<br>94</b>a better bound is '
       'published</span><span><b>20480?</b>above what is remembered as published: unconfirmed</span></p>')


def kind_of(piece):
    """A piece's kind, entry and size."""
    size = "" if piece.size is None else ", 1 word" if piece.size == 1 else f", {piece.size} words"
    return f"{piece.kind} of {name_of(piece.entry)}{size}"


def cite_line(text):
    """A text that a document cites as HTML, leading to the work where it names one."""
    work = bibliography.cited(text)
    return html.escape(text, quote=False) if work is None else html.escape(text, quote=False).replace(
        html.escape(work.cite(), quote=False), f'<a href="#w-{work.key}">{html.escape(work.cite(), quote=False)}</a>')


@dataclass(frozen=True)
class Line:
    """A line of a derivation: its side, its entry and its value, the rule with its arguments, and the numbers of the lines that it rests on."""
    side: str
    entry: tuple
    value: int
    rule: str
    arguments: tuple
    premises: tuple


def read_line(text):
    """The number of a line of a derivation, and the line."""
    words = text.split(" ")
    stop, by = words.index("value"), words.index("by")
    rest = words.index("from") if "from" in words else len(words)
    return int(words[1]), Line(words[2], tuple(map(int, words[3:stop])), int(words[stop + 1]), words[by + 1], tuple(words[by + 2:rest]),
                               tuple(map(int, words[rest + 1:])))


class Steps:
    """The last steps of derivations: each leads back to entries that have steps of their own, and so on to the pieces.

    A premise leads to the steps of its entry where these are of the same bound; else its line is one of the steps."""

    def __init__(self, held, entries):
        self.held, self.entries, self.whole = held, set(entries), set()
        self.read = {slot: dict(map(read_line, found.lines)) for slot, found in held.derivations.items()}
        self.find_rings()

    def leads(self, slot, line):
        """Whether a premise of a slot's derivation leads to the steps of its own entry."""
        return slot not in self.whole and line.entry in self.entries and (line.side, line.entry) in self.read and \
            line.value == self.held.bounds[line.entry][SIDES.index(line.side)]

    def of(self, slot):
        """The lines that stand under an entry, the last one last, each with its premises: a number of one of these lines, or a line."""
        lines, found, numbers = self.read[slot], [], {}

        def take(number):
            if number not in numbers:
                line = lines[number]
                premises = [lines[premise] if self.leads(slot, lines[premise]) else take(premise) for premise in line.premises]
                found.append((line, premises))
                numbers[number] = len(found)
            return numbers[number]

        if lines:
            take(max(lines))
        return found

    def find_rings(self):
        """Has derivations that would lead back to themselves stand whole."""
        done = set()
        for first in self.read:
            path, left = [], [(first, False)]
            while left:
                slot, is_behind = left.pop()
                if is_behind:
                    path.pop()
                    done.add(slot)
                elif slot in path:
                    self.whole.add(path[-1])
                elif slot not in done:
                    path.append(slot)
                    left.append((slot, True))
                    left += [((line.side, line.entry), False) for _, premises in self.of(slot) for line in premises if isinstance(line, Line)]


class Page:
    """The page over what a table holds; `data` are the names of files beside it, `words` those of the words of pieces, `found` the replies of
    the mode `find` by entry."""

    def __init__(self, held, data=(), words=None, found=None):
        self.held, self.data, self.words, self.found, self.out = held, data, words or {}, found or {}, []
        self.linked = {entry for entry in shown() if not is_trivial(entry)}
        self.steps = Steps(held, self.linked)

    def put(self, *lines):
        self.out.extend(lines)

    # ---- the tables
    def mark(self, entry, *sides):
        """The last rules of an entry's bounds, as a superscript."""
        rules = [self.held.derivations[side, entry].rule for side in sides if (side, entry) in self.held.derivations]
        return f"<sup>{' '.join(dict.fromkeys(rules))}</sup>" if rules else ""

    def cell(self, entry):
        """The cell of an entry, which is also that of the entry with each digit turned."""
        low, high = bounds = self.held.bounds[entry]
        other = turned(entry)
        also = f'<i id="a{anchor(other)}"></i>' if other else ""
        if is_trivial(entry):
            return f'<td id="a{anchor(entry)}" class="one">{also}1</td>'
        kinds = [gap(low, high)] * (low < high) + ["behind"] * is_behind(entry, bounds)
        doubt = "?" * is_unconfirmed(entry, bounds)
        text = f"{low}{doubt}{self.mark(entry, *SIDES)}" if low == high else f"{low}{doubt}{self.mark(entry, 'lower')}<br>{high}{self.mark(entry, 'upper')}"
        of = f' class="{" ".join(kinds)}"' if kinds else ""
        return f'<td id="a{anchor(entry)}"{of}>{also}<a href="#b{anchor(entry)}">{text}</a></td>'

    def grid(self, name, caption, columns, rows):
        """A table: rows are lengths with the entries of their columns, or nothing."""
        self.put(f'<div class="scroll" role="region" tabindex="0" aria-label="{caption}"><table>',
                 f'<thead><tr><th scope="col">{name}</th>' + "".join(f'<th scope="col">{c}</th>' for c in columns) + "</tr></thead><tbody>")
        for n, entries in rows:
            cells = "".join(self.cell(entry) if entry else "<td></td>" for entry in entries)
            self.put(f'<tr><th scope="row">{n}</th>{cells}</tr>')
        self.put("</tbody></table></div>")

    def plain(self, place, title, distances):
        """A table without weight."""
        self.put(f'<section id="{place}"><h2>{formula("A(n,d)")}{title}</h2>')
        self.grid("<i>n</i> \\ <i>d</i>", f"Table of A(n,d){title}", distances, [(n, [(n, d) for d in distances]) for n in table.LENGTHS])
        self.put("" if title else KEY, "</section>")

    def weighted(self, d):
        """The table of a distance."""
        weights = range(d // 2, table.LAST // 2 + 1)
        self.put(f'<section id="weight{d}"><h2>{formula(f"A(n,{d},w)")}</h2>')
        self.grid("<i>n</i> \\ <i>w</i>", f"Table of A(n,{d},w)", weights, [(n, [(n, d, w) if w <= n // 2 else None for w in weights]) for n in table.LENGTHS if n >= d])
        self.put("</section>")

    def without_cells(self):
        """The anchors of the entries that have no cell: such an entry is 1."""
        cells = {*shown(), *filter(None, map(turned, shown()))}
        places = "".join(f'<i id="a{anchor(entry)}"></i>' for entry in table.entries() if entry not in cells)
        self.put(f'<p class="ones">An entry without a cell is 1: no two words of its weight are far enough apart.{places}</p>')

    # ---- the entries
    def entry(self, entry):
        """What the bounds of an entry rest on and what is known beside it."""
        low, high = bounds = self.held.bounds[entry]
        known = with_works(html.escape("\n".join(compared(entry, bounds)), quote=False)).replace("\n", "<br>")
        self.put(f'<article id="b{anchor(entry)}"><a class="x" href="#a{anchor(entry)}">×</a><h3>{said(entry, low, high)}</h3><p>{known}</p>')
        for side in SIDES:
            if (side, entry) in self.held.derivations:
                self.put(f'<ol class="{side}">{"".join(self.step(*step) for step in self.steps.of((side, entry)))}</ol>')
        told = least.said(self.held, entry, self.found)
        if told:
            self.put(f'<p class="least">{html.escape(told)}</p>')
        if not any((side, entry) in self.held.derivations for side in SIDES):
            self.put("<p>This build of the program gives no derivations.</p>")
        self.put("</article>")

    def step(self, line, premises):
        """A step as an item of a list."""
        arguments = "".join(f' <a href="#p-{word}">{word}</a>' if word in self.held.pieces else f" {word}" for word in line.arguments)
        behind = ", ".join(f"<b>{premise}</b>" if isinstance(premise, int) else
                           f'<a href="#b{anchor(premise.entry)}">{name_of(premise.entry)} {SIGN[premise.side]} {premise.value}</a>' for premise in premises)
        return (f'<li>{name_of(line.entry)} {SIGN[line.side]} {line.value} by <a href="#{self.rule_place(line.rule, line.entry)}">{line.rule}</a>{arguments}'
                f'{" from " + behind if behind else ""}</li>')

    def rule_place(self, rule, entry):
        """The name of the place of a rule, in the case of an entry."""
        at = table.rules()[rule].index(table.rule_row(rule, entry))
        return f"r-{rule}" + (f"-{at + 1}" if at else "")

    # ---- the pieces, the rules and the works
    def pieces(self):
        """All pieces, with their titles, remarks, cites and parts. Their documents are compressed, behind all else."""
        for piece in self.held.pieces.values():
            parts = ", ".join(f'<a href="#p-{part}">{part}</a>' for part in piece.parts)
            cited = "".join(f"<li>{cite_line(text)}</li>" for text in piece.cites)
            remarks = " ".join(piece.remarks)
            more = remarks.removeprefix(piece.title).lstrip(".;: ")
            more = more[:1].upper() + more[1:]
            words = f'<p><a href="{self.words[piece.id]}" download>its words</a>, a line each</p>' if piece.id in self.words else ""
            self.put(f'<article id="p-{piece.id}" class="piece"><a class="x" href="#pieces">×</a><h3>{typeset(piece.title)}</h3><p><code>{piece.id}</code>: {kind_of(piece)}</p>',
                     f"<p>{typeset(more)}</p>" if more else "" if piece.cites or remarks else "<p>No source is stated.</p>", f"<p>It cites</p><ul>{cited}</ul>" if cited else "",
                     f"<p>Built from {parts}</p>" if parts else "", words, "</article>")

    def documents(self):
        """The documents of all pieces, compressed."""
        text = json.dumps({piece.id: piece.document for piece in self.held.pieces.values()}, ensure_ascii=False).encode("utf-8", "surrogateescape")
        return base64.b64encode(gzip.compress(text, 9, mtime=0)).decode()

    def index(self):
        """The list of all pieces by their ids."""
        links = " ".join(f'<a href="#p-{piece.id}">{piece.id}</a>' for piece in self.held.pieces.values())
        self.put(f'<section id="pieces"><h2>Pieces of evidence</h2><p>The program checked each of these {len(self.held.pieces)}: every word and every distance, every '
                 "inequality of a dual. A document is submitted again as it is, by <code>submit</code> above it and a line <code>end</code> below it; without "
                 f'JavaScript it is found by its name in the sessions of the library.</p><p class="ids">{links}</p></section>')

    def rules(self):
        """All rules, with their sentences and sources."""
        self.put('<section id="rules"><h2>Rules</h2><p>Each is proved to be true of all codes.</p><dl>')
        for rule, rows in table.rules().items():
            for at, row in enumerate(rows):
                place = f"r-{rule}" + (f"-{at + 1}" if at else "")
                self.put(f'<dt id="{place}">{rule}</dt><dd>{formula(row["says"])} ({formula(row["where"])}): {with_works(formula(row["source"]))}</dd>')
        self.put("</dl></section>")

    def works(self):
        """The works that are cited."""
        self.put('<section id="works"><h2>Works</h2><p>Of some no more is recorded than authors and year.</p><ul>')
        for work in bibliography.works().values():
            self.put(f'<li id="w-{work.key}">{html.escape(work.text(), quote=False)}</li>')
        self.put("</ul></section>")

    # ---- what is above and below
    def numbers(self):
        """What the table holds, in numbers."""
        for name, length in (("A(n,d)", 2), ("A(n,d,w)", 3)):
            kinds = [gap(*bounds) for entry, bounds in self.held.bounds.items() if len(entry) == length]
            numbers = {kind: kinds.count(kind) for kind in ("exact", "close", "wide")}
            yield f"{formula(name)}: {len(kinds)} entries, {numbers['exact']} exact, {numbers['close']} close, {numbers['wide']} wide"

    def bibtex(self):
        """How the table is cited."""
        made = provenance.provenance()
        return bibliography.entry("misc", "code-tables", {
            "author": f"{{{bibliography.latex(about.AUTHOR)}}}", "title": f"{{{bibliography.latex(about.TITLE)}}}", "year": table_data.today()[:4], "version": about.VERSION,
            "note": bibliography.latex(f"Version {about.VERSION}, {table_data.today()}. Program SHA-256 {made.program}, commit {made.commit}. Sessions SHA-256 {self.held.session_hash}")})

    def about(self):
        """What the page is, how to read it and to cite it, and by whom it is."""
        data = ", ".join(f'<a href="{html.escape(name)}">{html.escape(name)}</a>' for name in self.data)
        self.put('<section id="about"><h2>About this table</h2>',
                 f"<p>{formula('A(n,d)')} is the greatest number of binary words of length <i>n</i> any two of which differ in at least <i>d</i> places; {formula('A(n,d,w)')} is the same for "
                 f"words of weight <i>w</i>. {formula('A(n−1,d−1)')} = {formula('A(n,d)')} for even <i>d</i>, and {formula('A(n,d,w)')} = {formula('A(n,d,n−w)')}; an entry without a cell is 1. Each bound is "
                 "the best that the rules of the table give from the pieces of evidence below, and was written by a program that is proved. This page only shows it, and is not.</p>",
                 f"<p>{published.REMEMBERED} They are compared to length {published.LONGEST}. Arrow keys go from cell to cell.</p>",
                 f"<ul>{''.join(f'<li>{line}</li>' for line in self.numbers())}</ul>",
                 f"<p>As data: {data}</p>" if data else "", "</section>",
                 '<section id="cite"><h2>How to cite</h2><p>The table as below; one bound, with all that it rests on, by <code>tools/cite.py N D</code> or <code>tools/cite.py N D W</code> '
                 f"and the sessions.</p><pre>{html.escape(self.bibtex(), quote=False)}</pre></section>")

    def foot(self):
        """By whom it is, and what it was made by."""
        made = provenance.provenance()
        rows = [("Author", about.AUTHOR), ("Licence", about.LICENSE), ("Version", about.VERSION), ("Made on", table_data.today()), ("Sessions (SHA-256)", self.held.session_hash),
                ("Program (SHA-256)", made.program), ("Program (commit)", made.commit), ("Toolchain", made.toolchain)]
        self.put("<footer><dl>", *(f"<dt>{name}</dt><dd>{html.escape(value)}</dd>" for name, value in rows), "</dl></footer>")

    def head(self):
        """What stands above the tables."""
        weights = "".join(f'<a href="#weight{d}">{formula(f"A(n,{d},w)")}</a>' for d in table.EVEN)
        self.put("<!DOCTYPE html>", '<html lang="en"><head><meta charset="utf-8"><meta name="viewport" content="width=device-width, initial-scale=1">',
                 f"<title>Bounds on A(n,d) and A(n,d,w)</title><style>{style()}</style></head><body>",
                 f"<header><h1>Bounds on {formula('A(n,d)')} and {formula('A(n,d,w)')}</h1>",
                 "<p>The most binary words of length <i>n</i>, any two at distance at least <i>d</i>; with <i>w</i>, all of weight <i>w</i>.</p>",
                 f'<nav aria-label="Contents"><a href="#plain">{formula("A(n,d)")}</a>{weights}<a href="#odd">odd <i>d</i></a><a href="#about">About</a><a href="#cite">Cite</a>'
                 '<a href="#rules">Rules</a><a href="#pieces">Pieces</a><a href="#works">Works</a></nav>',
                 '<form id="go"><span class="choice"><label><input type="radio" name="show" id="all" checked><span>all</span></label><label><input type="radio" name="show" id="open">'
                 '<span>open</span></label><label><input type="radio" name="show" id="published"><span>published is better</span></label></span>'
                 '<label class="switch"><input type="checkbox" id="marks"> rules</label>'
                 '<span class="live" hidden><label>go to <input name="entry" placeholder="24 8 8" autocomplete="off" inputmode="numeric"></label> <button>go</button> '
                 '<button type="button" id="shade">light or dark</button></span> <output></output></form></header>')
        for command, reply in self.held.refused:
            self.put(f"<p><strong>Not on this page:</strong> {html.escape(' '.join(command.words))} was answered {html.escape(reply)}.</p>")

    def text(self):
        """The whole page: all that its first view needs comes first."""
        self.head()
        self.put("<main>")
        self.plain("plain", "", table.EVEN)
        for d in table.EVEN:
            self.weighted(d)
        self.plain("odd", " for odd <i>d</i>", ODD)
        self.about()
        self.put(BEHIND)
        self.rules()
        self.works()
        self.index()
        self.without_cells()
        self.put("</main>")
        self.foot()
        for entry in shown():
            if entry in self.linked:
                self.entry(entry)
        self.pieces()
        self.put(f'<script type="text/plain" id="documents">{self.documents()}</script>',
                 f"<script>{(HERE / 'page.js').read_text('utf-8')}</script></body></html>")
        return "\n".join(line for line in self.out if line) + "\n"


# The first view of the page needs only what comes before this.
BEHIND = "<!-- behind the first view -->"


def beside(path):
    """How a page at standard output links to a file: by its name alone, since they lie in one folder."""
    return Path(path).name


def write_words(folder, held):
    """Writes the words of codes, a file each, and gives the names under which the page links to them."""
    Path(folder).mkdir(parents=True, exist_ok=True)
    names = {}
    for name, n, words in words_of_pieces.codes(held.pieces.values(), MOST_WORDS):
        (Path(folder) / f"{name}.txt").write_text("".join(f"{word:0{n}b}\n" for word in words))
        names[name] = f"{beside(folder)}/{name}.txt"
    return names


def main():
    parser = argparse.ArgumentParser(description=__doc__, formatter_class=argparse.RawDescriptionHelpFormatter)
    parser.add_argument("sessions", nargs="+", help="the library")
    parser.add_argument("--csv", help="a file for all entries as comma-separated values")
    parser.add_argument("--json", help="a file for all entries, with their derivations and the documents of the pieces, as JSON")
    parser.add_argument("--schema", help="a file for the schema of the JSON file")
    parser.add_argument("--words", help="a folder for the words of the codes")
    parser.add_argument("--found", help="a file with what the mode find wrote")
    parser.add_argument("--without-derivations", action="store_true", help="leave the derivations out")
    options = parser.parse_args()
    try:
        found = least.read(options.found) if options.found else None
        entries = table.entries() if options.csv or options.json else [entry for entry in shown() if not is_trivial(entry)]
        asked = [] if options.without_derivations else [f"explain {side} {' '.join(map(str, entry))}" for entry in entries for side in SIDES]
        held = table.held(table.read_sessions(options.sessions), table.ask_all() + asked)
        names = [beside(path) for path in (options.csv, options.json, options.schema) if path]
        text = Page(held, names, write_words(options.words, held) if options.words else None, found).text()
        if options.csv:
            table_data.write_csv(options.csv, held)
        if options.json:
            table_data.write_json(options.json, held)
        if options.schema:
            Path(options.schema).write_bytes((HERE / "table.schema.json").read_bytes())
    except (Refusal, OSError) as fault:
        sys.exit(f"page: refused: {fault}")
    sys.stdout.buffer.write(text.encode("utf-8", "surrogateescape"))
    for command, reply in held.refused:
        print(f"page: {' '.join(command.words)}: {reply}", file=sys.stderr)
    sys.exit(bool(held.refused))


if __name__ == "__main__":
    ended(main)

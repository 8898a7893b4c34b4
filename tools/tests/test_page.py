"""The page of a library stands alone, each of its links leads somewhere, each entry has an anchor, and its bounds are those of the program."""

import base64
import gzip
import html
import json
import re
import shutil
import subprocess
import tempfile
import unittest
from functools import cached_property
from html.parser import HTMLParser
from pathlib import Path

from support import DATA, FAKE, TOOLS, TOP, needs, needs_program, run, session
from test_cite import entries

import page
import table
from code_tables.sessions import name_of

SMALL = DATA / "page/small.session"


# What is tried in a browser: each says something in a list.
SCRIPTS = {
    "keys": "const go = text => { document.querySelector('[name=entry]').value = text; document.getElementById('go').requestSubmit(); said.push(location.hash); };"
            " const key = name => { document.activeElement.dispatchEvent(new KeyboardEvent('keydown', {key: name, bubbles: true})); said.push(document.activeElement.closest('td').id); };"
            " go('A(24,8,16)'); go('30 31'); said.push(document.querySelector('output').textContent); go('16 6'); key('ArrowRight'); key('ArrowDown'); key('ArrowLeft'); key('ArrowUp');"
            " document.getElementById('shade').click(); said.push(document.documentElement.dataset.theme);",
    "line_by_line": "location.hash = '#b10-6'; await new Promise(done => setTimeout(done, 300)); said.push(document.querySelector('#b10-6 ol.whole').textContent);",
    "documents_when_asked_for": "const piece = document.getElementById('p-hexa'); said.push(!!piece.querySelector('pre')); location.hash = '#p-hexa';"
                                " await new Promise(done => setTimeout(done, 500)); said.push(piece.querySelector('pre').textContent.slice(0, 14));",
    "without_scripts_what_is_led_to_is_seen":
        "const frame = document.createElement('iframe'); frame.sandbox = 'allow-same-origin'; frame.srcdoc = document.documentElement.outerHTML; document.body.append(frame);"
        " await new Promise(done => frame.onload = done); frame.contentWindow.location.hash = '#b10-7'; await new Promise(done => setTimeout(done, 300));"
        " const of = id => frame.contentDocument.getElementById(id); said.push(of('b10-7').checkVisibility(), of('b10-6').checkVisibility(), of('b10-7').querySelectorAll('ol.whole').length);",
}


class Reader(HTMLParser):
    """The ids and links of a page; tags have to close in order."""

    def __init__(self, text):
        super().__init__()
        self.open, self.ids, self.links, self.others = [], [], [], []
        self.feed(text)

    def handle_starttag(self, tag, attrs):
        attrs = dict(attrs)
        if tag not in ("br", "meta", "input"):
            self.open.append(tag)
        if "id" in attrs:
            self.ids.append(attrs["id"])
        if "href" in attrs:
            self.links.append(attrs["href"])
        self.others += [value for name, value in attrs.items() if name in ("src", "srcset", "action", "data")]

    def handle_endtag(self, tag):
        assert self.open.pop() == tag, tag


class Page(unittest.TestCase):
    @classmethod
    def setUpClass(cls):
        cls.text, cls.said, cls.status = run("page.py", SMALL, env=FAKE | {"SOURCE_DATE_EPOCH": "86400"})
        cls.reader = Reader(cls.text)
        cls.first, cls.behind = cls.text.split(page.BEHIND)

    def holds(self, words):
        """The page has these words; it isn't shown where it has not, since it is long."""
        self.assertTrue(words in self.text, words)

    def article(self, name):
        """What is shown where a name leads to."""
        return re.search(f'<article id="{name}".*?</article>', self.text, re.S)[0]

    def test_its_links_lead_within_it(self):
        self.assertEqual(self.reader.open, [])
        self.assertEqual(len(set(self.reader.ids)), len(self.reader.ids))
        self.assertEqual({link for link in self.reader.links if link[0] != "#" or link[1:] not in self.reader.ids}, set())
        self.assertEqual(self.reader.others, [])
        self.assertNotRegex(self.text, r"url\(|@import|https?:")

    def test_each_entry_has_an_anchor(self):
        ids = set(self.reader.ids)
        self.assertEqual(len(set(table.entries())), len(table.entries()))
        self.assertEqual([entry for entry in table.entries() if f"a{page.anchor(entry)}" not in ids], [])
        self.holds('<td id="a24-8-8" class="wide"><i id="a24-8-16"></i><a href="#b24-8-8"')
        self.holds('<td id="a15-5" class="wide">')

    def test_the_first_view_comes_first_and_is_small(self):
        self.assertLess(self.first.index("<table>"), self.first.index('id="about"'))
        self.assertEqual(self.first.count("<table>"), 2 + len(table.EVEN))
        self.assertLess(len(self.first.encode()), 300_000)
        self.assertNotIn("<article", self.first)

    def test_build_author_and_licence_stand_at_the_foot(self):
        self.assertNotIn("SHA-256)", self.first)
        foot = self.behind[self.behind.index("<footer>"):self.behind.index("</footer>")]
        for words in ("<dt>Author</dt><dd>The maintainers of code_tables</dd>", "<dt>Licence</dt><dd>MIT or Apache-2.0</dd>", "<dt>Made on</dt><dd>1970-01-02</dd>"):
            self.assertIn(words, foot)
        self.assertRegex(foot, r"<dt>Program \(SHA-256\)</dt><dd>[0-9a-f]{64}</dd>\n<dt>Program \(commit\)</dt><dd>unknown</dd>")

    def test_how_to_cite_is_bibtex(self):
        [(kind, key, fields)] = entries(html.unescape(re.search('<section id="cite">.*?<pre>(.*?)</pre>', self.text, re.S)[1]))
        self.assertEqual((kind, key, fields["year"]), ("misc", "code-tables", "1970"))

    def test_no_backtick_is_shown(self):
        shown = self.text[:self.text.index('<script type="text/plain"')]
        self.assertEqual(shown.count("`"), 0)
        self.assertIn("<code>cited</code>", self.article("p-longest"))

    def test_formulas_are_typeset(self):
        for text, shown in [("A(n,d) ≤ 2^n", "<i>A</i>(<i>n</i>,<i>d</i>) ≤ 2<sup><i>n</i></sup>"), ("2^(n/2−1)·A", "2<sup><i>n</i>/2−1</sup>·<i>A</i>"),
                            ("c_0 + y_i·K_10", "<i>c</i><sub>0</sub> + <i>y</i><sub><i>i</i></sub>·<i>K</i><sub>10</sub>"), ("the piece's 2i < a & wM", "the piece's 2<i>i</i> &lt; a &amp; <i>wM</i>"),
                            ("of n; `dual`, c_0..c_1", "of <i>n</i>; <code>dual</code>, <i>c</i><sub>0</sub>…<i>c</i><sub>1</sub>")]:
            self.assertEqual(page.formula(text), shown)
        self.assertEqual(page.typeset("N. J. A. Sloane, x^11, two_words"), "N. J. A. Sloane, x<sup>11</sup>, two_words")
        self.assertNotRegex(re.sub("<script.*?</script>|<style>.*?</style>|<code>.*?</code>|<pre>.*?</pre>", "", self.text, flags=re.S), r"\^|[cyK]_")

    def test_cells_have_bounds_and_the_marks_of_rules(self):
        self.holds('<td id="a10-6" class="wide"><a href="#b10-6">1<sup>L10</sup><br>1024<sup>U0</sup></a></td>')
        self.holds('<td id="a5-6" class="one">1</td>')
        self.holds("td sup { display: none;")

    def test_steps_lead_to_the_rules_and_the_pieces(self):
        self.assertIn('<ol class="lower"><li>A(10,6) ≥ 1 by <a href="#r-L10">L10</a> <a href="#p-hexa">hexa</a></li></ol>', self.article("b10-6"))
        self.holds('<dt id="r-V9">V9</dt><dd><i>A</i>(<i>n</i>,<i>d</i>,<i>w</i>) ≤ ⌊<i>f</i>(0)/<i>c</i><sub>0</sub>⌋')
        self.holds('<a href="#w-johnson-1962">Johnson 1962</a>; <a href="#w-macwilliams-sloane-1977">MacWilliams and Sloane</a>, ch. 17, sec. 2')
        self.holds('<li id="w-johnson-1962">Johnson 1962</li>')

    def test_steps_are_the_derivation(self):
        lines = ["line 1 upper 13 6 3 value 4 by V2", "line 2 upper 14 6 4 value 14 by V4 from 1", "line 3 upper 14 6 10 value 14 by V3 from 2",
                 "line 4 upper 15 6 5 value 42 by V4 from 2"]
        bounds = {(13, 6, 3): (4, 4), (14, 6, 4): (14, 14), (14, 6, 10): (14, 14), (15, 6, 5): (42, 42)}
        derivations = {("upper", (13, 6, 3)): lines[:1], ("upper", (14, 6, 4)): lines[:2], ("upper", (14, 6, 10)): lines[:3], ("upper", (15, 6, 5)): [*lines[:2], lines[3]]}
        held = table.Held(bounds, {}, {slot: table.Derivation([], rows) for slot, rows in derivations.items()})
        steps = page.Steps(held, {(13, 6, 3), (14, 6, 4), (15, 6, 5)})
        found = [(line.entry, premises) for line, premises in steps.of(("upper", (15, 6, 5)))]
        self.assertEqual(found, [((15, 6, 5), [page.read_line(lines[1])[1]])])
        self.assertEqual([premises for _, premises in steps.of(("upper", (14, 6, 10)))], [[page.read_line(lines[1])[1]]])
        held.bounds[14, 6, 4] = (14, 13)
        self.assertEqual([len(premises) for _, premises in page.Steps(held, {(13, 6, 3), (14, 6, 4)}).of(("upper", (15, 6, 5)))], [1, 1])

    def test_a_ring_of_derivations_stands_whole(self):
        derivations = {("lower", (9, 4)): ["line 1 lower 8 3 value 20 by L10 a", "line 2 lower 9 4 value 20 by L5 from 1"],
                       ("lower", (8, 3)): ["line 1 lower 9 4 value 20 by L10 b", "line 2 lower 8 3 value 20 by L6 from 1"]}
        held = table.Held({(9, 4): (20, 20), (8, 3): (20, 20)}, {}, {slot: table.Derivation([], rows) for slot, rows in derivations.items()})
        steps = page.Steps(held, {(9, 4), (8, 3)})
        self.assertEqual(sorted(len(steps.of(slot)) for slot in derivations), [1, 2])

    def test_rules_are_those_of_the_document(self):
        rows = []
        for line in (TOP / "docs/RULES.md").read_text().split("\n"):
            cells = [cell.strip() for cell in line.strip("|").split(" | ")]
            if re.fullmatch("[LMUV][0-9]+( r)?", cells[0]):
                rows.append(dict(zip(("rule", "where", "says", "source"), [cells[0].split(" ")[0], *cells[1:4]])))
        self.assertEqual(rows, json.loads((TOOLS / "rules.json").read_text()))

    def test_the_case_of_a_rule_is_that_of_its_entry(self):
        for rule, entry, case, place in [("L8", (8, 4), "d ≤ 4", "r-L8"), ("L8", (16, 6), "d ≥ 5", "r-L8-2"), ("U2", (12, 8), "d ≤ n < 2d", "r-U2"), ("U2", (12, 6), "n = 2d", "r-U2-2"),
                                         ("U2", (11, 7), "d ≤ n < 2d+1", "r-U2-3"), ("U2", (11, 5), "n = 2d+1", "r-U2-4")]:
            self.assertIn(case, table.rule_row(rule, entry)["where"])
            self.assertEqual(page.Page(table.Held()).rule_place(rule, entry), place)
            self.assertIn(place, self.reader.ids)

    def test_pieces_have_title_source_and_document(self):
        self.assertNotIn("A remark that belongs to nothing", self.text)
        piece = self.article("p-hexa")
        self.assertIn("<h3>The six words &lt;of length ten&gt; &amp; nothing else</h3><p><code>hexa</code>: words of A(10,6), 1 word</p>", piece)
        longer = self.article("p-longer")
        self.assertIn('Built from <a href="#p-hexa">hexa</a>', longer)
        self.assertIn("No source is stated.", longer)
        packed = re.search('<script type="text/plain" id="documents">(.*?)</script>', self.text)[1]
        documents = json.loads(gzip.decompress(base64.b64decode(packed)))
        self.assertEqual(list(documents), ["hexa", "longer", "cited", "longest"])
        self.assertTrue(documents["hexa"].startswith('kind = "words"\nn = 10\n') and "1111000000" in documents["hexa"])

    def test_pieces_stand_with_what_they_cite(self):
        cited = "<p>It cites</p><ul><li>A. Name &amp; B. Other, Of &lt;codes&gt;, 50% new</li><li>Another_one, 1991</li></ul>"
        piece, other = self.article("p-cited"), self.article("p-longest")
        self.assertIn(cited, piece)
        self.assertNotIn("No source is stated.", piece)
        self.assertIn("<p>No word more.</p>\n<p>It cites</p><ul><li>Another_one, 1991</li><li>A third, {1992}</li></ul>", other)
        work = "M. J. E. Golay, Notes on digital coding, Proc. IRE 37 (1949), 657"
        self.assertEqual(page.cite_line(f"{work}, ch. 1"), f'<a href="#w-golay-1949">{work}</a>, ch. 1')

    def test_what_is_known_stands_beside(self):
        for name, words in [("17-4", "≥ 1 is proved here. Published only: ≥ 2816, as remembered.<br>≤ 131072 is proved here. Published only, the technique is not remembered: ≤ 3276, as remembered."),
                            ("16-3", "≥ 2816, as remembered"), ("12-4-5", "≥ 1 is proved here. Published only: ≥ 80, as remembered."), ("20-4-7", "Published values: not known here."),
                            ("20-8", 'by semidefinite programming with quadruples of words (<a href="#w-gijswijt-mittelmann-schrijver-2012">')]:
            self.assertIn(words, self.article(f"b{name}"))
        self.assertIn("remembered, and none of them could be looked up", self.first)

    def test_above_what_is_published_is_unconfirmed(self):
        self.assertTrue(page.is_unconfirmed((25, 6), (20480, 48148)) and page.is_unconfirmed((24, 5), (20480, 48148)))
        self.assertFalse(page.is_unconfirmed((25, 6), (17920, 48148)) or page.is_unconfirmed((16, 6), (256, 256)))
        self.assertEqual(page.compared((25, 6), (20480, 48148))[0],
                         "≥ 20480: proved here, above what is remembered: unconfirmed. 17920 is remembered as published.")
        self.assertEqual(page.compared((17, 4), (2816, 3276)), ["≥ 2816: proved here.", "≤ 3276: proved here."])

    def test_published_bounds_that_are_better_are_marked(self):
        self.assertTrue(page.is_behind((20, 8), (256, 279)) and page.is_behind((17, 6), (256, 340)))
        self.assertFalse(page.is_behind((17, 4), (2816, 3276)) or page.is_behind((16, 6), (256, 256)) or page.is_behind((29, 6), (1, 9)))
        self.holds('<td id="a20-8" class="wide behind">')
        for name in ("open", "published", "marks"):
            self.holds(f"body:has(#{name}:checked)")

    def test_a_dark_mode(self):
        self.holds("@media screen and (prefers-color-scheme: dark) { :root:not([data-theme=light])")
        self.holds(":root[data-theme=dark] {")

    @cached_property
    def in_a_browser(self):
        """What each of the scripts says of the page in a browser."""
        parts = "".join(f"{{ const said = all.{name} = []; {script} }}" for name, script in SCRIPTS.items())
        script = f"<script>addEventListener('load', async () => {{ const all = {{}}; {parts} document.body.textContent = ''; document.title = JSON.stringify(all); }});</script>"
        with tempfile.TemporaryDirectory(ignore_cleanup_errors=True) as folder:
            file = Path(folder) / "page.html"
            file.write_text(self.text.replace("</body>", script + "</body>"))
            words = [shutil.which("chromium"), "--headless=new", "--no-sandbox", "--disable-gpu", f"--user-data-dir={folder}/home", "--virtual-time-budget=5000", "--dump-dom",
                     file.as_uri()]
            shown = subprocess.run(words, capture_output=True, text=True).stdout
        return json.loads(html.unescape(re.search("<title>(.*?)</title>", shown, re.S)[1]))

    @needs("chromium")
    def test_in_a_browser(self):
        for name, said in [("keys", ["#a24-8-16", "#a24-8-16", "The table has no such entry.", "#a16-6", "a16-8", "a17-8", "a17-6", "a16-6", "dark"]),
                           ("line_by_line", ["A(10,6) ≥ 1 by L10 hexaA(n,d) is at least the number of words of the piece (the entry of a piece): the piece's words are a code of the entry"]),
                           ("documents_when_asked_for", [False, 'kind = "words"']), ("without_scripts_what_is_led_to_is_seen", [True, False, 0])]:
            with self.subTest(name):
                self.assertEqual(self.in_a_browser[name], said)

    @needs("chromium")
    def test_an_entry_that_is_open_is_printed_alone(self):
        with tempfile.TemporaryDirectory(ignore_cleanup_errors=True) as folder:
            (Path(folder) / "page.html").write_text(self.text)
            subprocess.run([shutil.which("chromium"), "--headless=new", "--no-sandbox", "--disable-gpu", f"--user-data-dir={folder}/home", f"--print-to-pdf={folder}/page.pdf",
                            (Path(folder) / "page.html").as_uri() + "#b10-6"], capture_output=True)
            self.assertEqual(len(re.findall(rb"/Type\s*/Page\b", (Path(folder) / "page.pdf").read_bytes())), 1)

    def test_the_totals(self):
        self.assertRegex(self.text, r"<li><i>A</i>\(<i>n</i>,<i>d</i>\): 840 entries, \d+ exact")
        self.holds("The program checked each of these 4:")

    def test_refusals_are_said(self):
        self.assertEqual((self.said, self.status), ("page: submit hexa: refused taken\n", 1))
        self.holds("submit hexa was answered refused taken")

    def test_what_can_not_be_read_is_refused(self):
        for name, fault in [("no/such", "no/such can't be read"), (DATA / "page/cut.session", "the session ends within a document")]:
            out, said, status = run("page.py", name, env=FAKE)
            self.assertEqual((out, status), ("", 1))
            self.assertIn("page: refused: " + fault, said)

    def test_names_of_entries(self):
        self.assertEqual(page.said((24, 8, 8), 759, 759), f"{name_of((24, 8, 8))} = 759")

    @needs_program
    def test_bounds_are_those_of_the_program(self):
        text, _, _ = run("page.py", "--without-derivations", "examples/octads.session")
        shown = session((TOOLS.parent / "examples/octads.session").read_text() + "\nshow 24 8 8\nshow 20 6\n").splitlines()[-2:]
        self.assertEqual(shown[0], "A(24,8,8) = 759")
        self.assertIn('<a href="#b24-8-8">759</a>', text)
        low, high = re.fullmatch(r"(\d+) <= A\(20,6\) <= (\d+)", shown[1]).groups()
        self.assertIn(f">{low}<br>{high}</a>", text)

    @needs_program
    def test_the_page_of_the_library_is_small_and_its_derivations_are_the_programs(self):
        if session("explain upper 16 6\n").startswith("refused command"):
            self.skipTest("this program explains nothing yet")
        entries = [entry for entry in page.shown() if not page.is_trivial(entry)]
        asked = [f"explain {side} {' '.join(map(str, entry))}" for entry in entries for side in table.SIDES]
        made = page.Page(table.held(table.read_sessions(sorted((TOP / "examples/library").glob("*.session"))), table.ask_all() + asked))
        for slot, found in made.held.derivations.items():
            lines, left = set(), [slot]
            while left:
                for line, premises in made.steps.of(left.pop()):
                    lines.add((line.side, line.entry, line.value, line.rule, line.arguments))
                    left += [(premise.side, premise.entry) for premise in premises if isinstance(premise, page.Line) and
                             (premise.side, premise.entry, premise.value, premise.rule, premise.arguments) not in lines]
            self.assertEqual(lines, {(line.side, line.entry, line.value, line.rule, line.arguments) for _, line in map(page.read_line, found.lines)}, slot)
        text = made.text().encode("utf-8", "surrogateescape")
        self.assertLess(len(text), 2_000_000)
        self.assertLess(text.index(page.BEHIND.encode()), 300_000)


if __name__ == "__main__":
    unittest.main()

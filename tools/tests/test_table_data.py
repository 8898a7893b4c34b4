"""The table as data: every entry, each bound with all that checks it again, as its schema says; and the folder of a release."""

import csv
import hashlib
import json
import re
import subprocess
import tempfile
import unittest
from pathlib import Path

from support import DATA, FAKE, FAKE_PROGRAM, TOOLS, TOP, needs_program, run, session

import check_derivation
import table
import table_data
import words_of_pieces
from code_tables import sessions

SMALL = DATA / "page/small.session"
SCHEMA = json.loads((TOOLS / "table.schema.json").read_text())
TYPES = {"object": dict, "array": list, "string": str, "integer": int, "null": type(None)}


def faults(value, schema, place="$"):
    """What a value breaks of a schema: of the words that the schema of the table uses, no others."""
    known = {"$schema", "title", "description", "type", "required", "additionalProperties", "properties", "items", "const", "enum", "pattern", "minimum",
             "maximum", "minItems", "$ref", "$defs"}
    assert set(schema) <= known, set(schema) - known
    if "$ref" in schema:
        yield from faults(value, SCHEMA["$defs"][schema["$ref"].removeprefix("#/$defs/")], place)
    kinds = schema.get("type", list(TYPES))
    if not isinstance(value, tuple(TYPES[kind] for kind in ([kinds] if isinstance(kinds, str) else kinds))) or isinstance(value, bool):
        yield f"{place}: type"
    elif isinstance(value, dict):
        yield from (f"{place}: no {name}" for name in schema.get("required", ()) if name not in value)
        if schema.get("additionalProperties") is False:
            yield from (f"{place}: more {name}" for name in value if name not in schema["properties"])
        for name, of in schema.get("properties", {}).items():
            if name in value:
                yield from faults(value[name], of, f"{place}.{name}")
    elif isinstance(value, list):
        if len(value) < schema.get("minItems", 0):
            yield f"{place}: short"
        for at, item in enumerate(value if "items" in schema else ()):
            yield from faults(item, schema["items"], f"{place}[{at}]")
    elif isinstance(value, int):
        if not schema.get("minimum", value) <= value <= schema.get("maximum", value):
            yield f"{place}: range"
    if "const" in schema and value != schema["const"] or "enum" in schema and value not in schema["enum"]:
        yield f"{place}: another value"
    if isinstance(value, str) and not re.search(schema.get("pattern", ""), value):
        yield f"{place}: pattern"


class Data(unittest.TestCase):
    @classmethod
    def setUpClass(cls):
        with tempfile.TemporaryDirectory() as folder:
            cls.said = run("table_data.py", SMALL, "--csv", folder + "/t.csv", "--json", folder + "/t.json", env=FAKE | {"SOURCE_DATE_EPOCH": "0"})
            with open(folder + "/t.csv", encoding="utf-8") as file:
                cls.rows = list(csv.reader(file))
            cls.json = json.loads(Path(folder + "/t.json").read_text(encoding="utf-8"))

    def test_the_csv_has_every_entry(self):
        self.assertEqual(self.rows[0], ["n", "d", "w", "lower", "upper", "lower_rule", "upper_rule", "lower_pieces", "upper_pieces",
                                        "published_lower", "published_upper", "technique", "source", "note", "lower_is", "upper_is"])
        self.assertEqual([tuple(map(int, filter(None, row[:3]))) for row in self.rows[1:]], table.entries())
        self.assertIn(["10", "6", "", "1", "1024", "L10", "U0", "hexa", "", "", "", "", "", "", "not known here", "not known here"], self.rows)
        self.assertIn(["11", "6", "", "1", "2048", "L10", "U0", "hexa longer", "", "12", "12", "", "", "", "published only",
                       "published only, the technique is not remembered"], self.rows)

    def test_both_have_the_published_values(self):
        by = "semidefinite programming with quadruples of words"
        entry = next(e for e in self.json["entries"] if (e["n"], e["d"], e["w"]) == (19, 7, None))
        self.assertEqual(entry["published"], {"lower": 256, "upper": 256, "technique": by, "source": "Gijswijt, Mittelmann and Schrijver 2012", "note": None,
                                              "lower_is": "published only", "upper_is": "published only, by " + by})
        row = next(row for row in self.rows if row[:3] == ["24", "10", "16"])
        self.assertEqual(row[-7:], ["69", "", "", "", "", "published only", "not known here"])
        self.assertEqual(next(row for row in self.rows if row[:3] == ["5", "6", ""])[-2:], ["proved here", "proved here"])

    def test_without_outputs_it_says_what_to_give(self):
        self.assertEqual(run("table_data.py", SMALL, env=FAKE), ("", "table_data: refused: nothing is asked for: give --csv FILE, --json FILE or --comparison FILE\n", 1))

    def test_the_json_has_every_entry_with_rule_derivation_and_documents(self):
        self.assertEqual([(e["n"], e["d"]) if e["w"] is None else (e["n"], e["d"], e["w"]) for e in self.json["entries"]], table.entries())
        entry = next(e for e in self.json["entries"] if (e["n"], e["d"], e["w"]) == (10, 6, None))
        self.assertEqual(entry["lower"], {"value": 1, "rule": "L10", "derivation": ["line 1 lower 10 6 value 1 by L10 hexa"], "evidence": ["hexa"]})
        self.assertEqual(self.json["pieces"][1] | {"document": ""}, {"id": "longer", "kind": "build", "n": 11, "d": 6, "w": None, "size": 1, "parts": ["hexa"],
                                                                     "title": "longer", "sources": [], "document": ""})
        self.assertIn('\nop = "lengthen"\n', self.json["pieces"][1]["document"])
        self.assertEqual([piece["sources"] for piece in self.json["pieces"]], [
            ["The six words <of length ten> & nothing else."], [], ["A. Name & B. Other, Of <codes>, 50% new", "Another_one, 1991"],
            ["Another_one, 1991", "A third, {1992}", "The code `cited` and a digit: no word more."]])
        self.assertEqual((self.json["made"], self.json["program"]["commit"]), ("1970-01-01", "unknown"))

    def test_the_schema_takes_the_data_and_nothing_less(self):
        self.assertEqual(list(faults(self.json, SCHEMA)), [])
        few = {**self.json, "entries": self.json["entries"][:6]}
        self.assertEqual(list(faults(few, SCHEMA)), [])
        for change in (lambda d: d.pop("made"), lambda d: d["entries"][0]["lower"].pop("rule"), lambda d: d["entries"][0].update(w=-1),
                       lambda d: d["pieces"][0].update(kind="guess"), lambda d: d["entries"][5]["upper"].update(derivation=[]), lambda d: d.update(more=1)):
            changed = json.loads(json.dumps(few))
            change(changed)
            self.assertNotEqual(list(faults(changed, SCHEMA)), [])

    def test_the_schema_ends_where_the_table_does(self):
        self.assertEqual([SCHEMA["$defs"][name]["maximum"] for name in "ndw"], [table.LAST] * 3)

    def test_the_schema_knows_each_kind(self):
        self.assertEqual(set(SCHEMA["properties"]["pieces"]["items"]["properties"]["kind"]["enum"]), set(check_derivation.KINDS))

    def test_refusals_end_with_1(self):
        self.assertEqual(self.said, ("", "table_data: submit hexa: refused taken\n", 1))

    @needs_program
    def test_each_bound_can_be_checked_again_from_the_data(self):
        text = (TOP / "examples/octads.session").read_text()
        held = table.held(text, table.ask_all() + [f"explain {side} {entry}" for side in table_data.SIDES for entry in ("24 8 8", "23 8 7", "20 8 12", "22 7")])
        pieces = {"pieces": list(map(table_data.piece_of, held.pieces.values()))}
        for side, entry in held.derivations:
            document = table_data.document(pieces, table_data.entry_of(held, entry), side)
            self.assertEqual(document.split("\n")[0], "derivation")
            self.assertEqual(session(document, "verify"), "yes\n")
            self.assertEqual(session(text + f"\nexplain {side} {' '.join(map(str, entry))}\n")[-len(document):], document)
        self.assertEqual(check_derivation.verdict(document.encode()), "yes")


class Words(unittest.TestCase):
    def test_words_are_those_of_each_code_and_of_no_partition(self):
        text = table.read_sessions(TOP / f"examples/{name}.session" for name in ("partitions", "octads", "duals"))
        sizes = {"octads": 759, "golay": 4096, "hamming": 16, "product8": 14}
        pieces = [table.piece_of(f"{command.id} {command.fields['kind']} 1 1 size {sizes.get(command.id, 1)}", {command.id: command})
                  for command in sessions.commands(text) if command.words[0] == "submit"]
        self.assertLess({"dual", "odd", "jdual", "partition"}, {piece.kind for piece in pieces})
        found = {name: list(words) for name, _, words in words_of_pieces.codes(pieces, 1000)}
        self.assertEqual({name: len(words) for name, words in found.items()}, {"hamming": 16, "product8": 14, "octads": 759})
        self.assertEqual(found["product8"][:3], [0b00001111, 0b00110011, 0b00111100])


class Release(unittest.TestCase):
    def release(self, folder, *sessions, program=FAKE_PROGRAM):
        return subprocess.run([TOOLS / "release.sh", folder, *sessions], env=FAKE | {"CODE_TABLES": str(program)}, capture_output=True, text=True)

    def test_a_release_is_one_folder_with_checksums(self):
        with tempfile.TemporaryDirectory() as place:
            folder = Path(place) / "a release"
            ended = self.release(folder, TOP / "examples/six-words.session")
            told = f"release: {folder}\nrelease: to tag it: git tag -a v0.9 -m 'code_tables 0.9' COMMIT && git push origin v0.9\n"
            self.assertEqual((ended.stdout, ended.stderr, ended.returncode),
                             (told, "release: COMMIT is the one that the program was built from, which no record beside it names\n", 0))
            files = {str(file.relative_to(folder)) for file in folder.rglob("*") if file.is_file()}
            wheel, = (name for name in files if name.endswith(".whl"))
            self.assertRegex(wheel, r"^code_tables-0\.9-py3-none-linux_\w+\.whl$")
            self.assertEqual(files - {wheel}, {"CHANGELOG.md", "CITATION.cff", "LICENSE", "LICENSE-APACHE", "LICENSE-MIT", "README.txt", "SHA256SUMS", "code_tables",
                                               "code_tables-0.9.tar.gz", "index.html", "library/six-words.session", "table.csv", "table.json", "table.schema.json",
                                               "words/hexa.txt"})
            sums = dict(reversed(line.split("  ./")) for line in (folder / "SHA256SUMS").read_text().splitlines())
            self.assertEqual(sums, {name: hashlib.sha256((folder / name).read_bytes()).hexdigest() for name in files - {"SHA256SUMS"}})
            self.assertEqual((folder / "code_tables").read_bytes(), FAKE_PROGRAM.read_bytes())
            self.assertEqual(len((folder / "words/hexa.txt").read_text().split()), 6)
            text = (folder / "index.html").read_text()
            for name in ("table.csv", "table.json", "table.schema.json", "words/hexa.txt"):
                self.assertIn(f'<a href="{name}"', text)
            again = self.release(folder)
            self.assertEqual((again.stderr, again.returncode), (f"release: {folder} is there already\n", 1))

    def test_a_release_with_a_refusal_is_none(self):
        with tempfile.TemporaryDirectory() as place:
            ended = self.release(Path(place) / "new", SMALL)
            self.assertEqual((ended.returncode, list(Path(place).iterdir())), (1, []))
            self.assertEqual(ended.stderr, "release: submit hexa: refused taken\nrelease: no folder is made: withdraw or mend what is refused\n")


if __name__ == "__main__":
    unittest.main()

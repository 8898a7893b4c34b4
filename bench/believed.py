#!/usr/bin/env python3
"""What has to be believed of `run`: the definitions that its clauses cite, those that these cite, and so on.

believed.py            prints them by file, each with the comment above it, and how many there are in each layer
believed.py --check    compares them with the rows of docs/THEOREM.md: says which of them no row has, which row has what `run` does not reach, which
                       comes before something that it rests on or stands twice, and which stand in docs/LAWS.md too, where all other definitions have
                       rows, but for those of specs/Inside/, which inner functions alone cite; and compares what docs/STATEMENT.md and docs/THEOREM.md
                       quote with the sources; ends with 1 where something differs. It writes nothing
believed.py --write    writes the quotations of these two documents anew

A quotation is a block of code whose first line names a file below crates/ and what stands there: definitions or types, in the order in which they are
quoted, or a function, whose clauses are meant, or a function and one of its clauses. docs/STATEMENT.md has the clause `true_bounds` of `run` and all that
it reaches, and nothing else; docs/THEOREM.md has all clauses of `run` and of `answer`, and the layers with their sizes.

A name in a clause or a definition stands for what its file defines or imports under that name. The types and constants of `src/` are
reached by their names too, what a type's meaning (`impl Model`) cites, and the traits of the source and the sink; bodies, proofs and laws are not. A row names definitions, in
backticks, and the files below crates/ in which they stand: a row `a`, `b` with two files has each name in whichever of the files has it.
"""

import re
import sys
from pathlib import Path

TOP = Path(__file__).resolve().parent.parent
CRATES = TOP / "crates"
RUN = "ct_run/src/dispatch.rt"
ANSWER = "ct_run/src/in_memory.rt"
HEAD = re.compile(
    r"(?!(?:pub )?(?:mod|infixl|infixr|unfolding) )(?:(?:abbrev|unfoldable|opaque) )*(?:pub )?(?:(?:abbrev|unfoldable|opaque) )*"
    r"(?:(record|data) )?([^\s:(){}]+)(?= [\w({:◌=]|:)"
)
USE = re.compile(r"^\s*(?:pub )?(?:ghost )?(?:pub )?use Rattle\.(ct_\w+)\.specs\.([\w.]+?)\.\{([^}]*)\}", re.M)


def tokens(text):
    """The words and signs of a text, without comments."""
    text = re.sub(r"(?m)(?:--|//).*$", "", text)
    text = re.sub(r'"[^"]*"', " ", text)
    return set(re.split(r"[\s(){}\[\],;]+|(?<=\w)\.(?=\w)", text))


def cited(name, words):
    """Whether the words have the name: all its parts, where it is written around its arguments."""
    parts = [part for part in name.split("◌") if part]
    return bool(parts) and all(part in words for part in parts)


class Spec:
    """A file of definitions: what it defines, with the text of each, and where its other names are defined."""

    def __init__(self, path):
        self.path = path
        self.text = path.read_text()
        self.comments, self.blocks = {}, {}
        name, comment = None, []
        for line in self.text.split("\n"):
            if line.startswith("--"):
                comment.append(line[2:].strip())
                continue
            found = HEAD.match(line) if line and not line[0].isspace() and not line.startswith("use ") else None
            if found:
                new = found.group(2)
                if new not in self.blocks:
                    self.blocks[new], self.comments[new] = "", " ".join(comment)
                name = new
            if name and not line.startswith("use "):
                self.blocks[name] += line + "\n"
            if line.strip():
                comment = []
        self.imports = imports(self.text)

    def names(self):
        return self.blocks.keys()


def imports(text):
    """What the names that a file imports stand for: (crate, module, name)."""
    found = {}
    for crate, module, names in USE.findall(text):
        for name in names.split(","):
            name, _, other = name.strip().partition(" as ")
            found[other or name] = (crate, module, name)
    return found


SPECS = {}
for path in CRATES.glob("ct_*/specs/**/*.antt"):
    crate = path.relative_to(CRATES).parts[0]
    module = ".".join(path.relative_to(CRATES / crate / "specs").with_suffix("").parts)
    SPECS[crate, module] = Spec(path)


def clauses(path, call):
    """The clauses of a call of src/, and what its file imports."""
    text = (CRATES / path).read_text()
    start = re.search(rf"^pub fn {call}\b", text, re.M).start()
    body = text.index("\n{", start)
    return text[start:body], imports(text)


def traits(path, call):
    """The traits that a call of src/ asks of its types, whose clauses are a premise: (crate, module, name)."""
    text = (CRATES / path).read_text()
    asked = re.findall(r"\w+: (\w+)", re.search(rf"^pub fn {call}<([^>]*)>", text, re.M)[1])
    for crate, names in re.findall(r"^use (ct_\w+)::\{([^}]*)\};", text, re.M):
        for name in set(asked) & {it.strip() for it in names.split(",")}:
            file = next(file for file in (CRATES / crate / "src").glob("**/*.rt") if f"pub trait {name} " in file.read_text())
            yield crate, f"declared.{file.stem}.{name}", name


def declared(crate, module, name):
    """The text of a type's meaning in src/, with its file's imports: what its `Model` says; of a trait, its members and clauses."""
    parts = module.split(".")[1:]
    for length in range(len(parts), 0, -1):
        path = CRATES / crate / "src" / Path(*parts[:length]).with_suffix(".rt")
        if path.exists():
            text = path.read_text()
            meaning = "\n".join(re.findall(rf"(?:impl(?:<[^>]*>)? Model for|^pub trait) {name}\b.*?^}}", text, re.M | re.S))
            return meaning, imports(text)
    return "", {}


def cited_by(crate, module, name):
    """What a definition, or the meaning of a type, cites: (crate, module, name)."""
    spec = SPECS.get((crate, module))
    if spec is None:
        meaning, known = declared(crate, module, name)
        words = tokens(meaning)
        return [place for it, place in known.items() if cited(it, words)]
    block = spec.blocks.get(name)
    if block is None:
        # a constructor or a field of a record: the block that has it
        return [(crate, module, it) for it, text in spec.blocks.items() if re.search(rf"(?m)^\s+(?:pub )?{re.escape(name)} :", text)]
    words = tokens(block)
    return [(crate, module, it) for it in spec.names() if it != name and cited(it, words)] + [place for it, place in spec.imports.items() if cited(it, words)]


def reached_by(text, known, places=()):
    """All that a text rests on, whose names stand for what is known, and these places: (crate, module, name)."""
    words = tokens(text)
    todo, seen = [*places, *(place for name, place in known.items() if cited(name, words))], set()
    while todo:
        place = todo.pop()
        if place not in seen:
            seen.add(place)
            todo += cited_by(*place)
    return seen


def reached():
    """All that the clauses of `run` and `answer` rest on, and the traits that `run` asks for: (crate, module, name)."""
    return reached_by(*clauses(RUN, "run"), traits(RUN, "run")) | reached_by(*clauses(ANSWER, "answer"))


def is_definition(place):
    crate, module, name = place
    return (crate, module) in SPECS and name in SPECS[crate, module].blocks


def file_of(place):
    """The file below crates/ in which a definition, or a type or constant of src/, stands; none for a variant or a field."""
    crate, module, name = place
    if is_definition(place):
        return f"{crate}/specs/{module.replace('.', '/')}.antt"
    if not module.startswith("declared") or "TheVariants" in module:
        return None
    parts = [part for part in module.split(".")[1:] if part not in ("TheConstants", name)]
    return f"{crate}/src/{'/'.join(parts) or 'lib'}.rt"


def rows(document):
    """The rows of a document that name definitions: the number of the line, the names, and the files."""
    for number, line in enumerate((TOP / "docs" / document).read_text().split("\n"), 1):
        cells = [cell.strip() for cell in line.strip().strip("|").split(" | ")]
        if line.startswith("| `") and len(cells) == 3:
            files = re.findall(r"`(ct_\w+/[^`]+)`", cells[2])
            if files:
                yield number, re.findall(r"`([^`]+)`", cells[0]), files


def stands_in(name, file):
    """Whether a file of the crates defines the name."""
    path = CRATES / file
    if not path.exists():
        return False
    if path.suffix == ".antt":
        return name in Spec(path).blocks
    return re.search(rf"(?m)^\s*(?:pub )?(?:ghost|const|enum|struct|trait|type) {re.escape(name)}\b", path.read_text()) is not None


def listed(document, said):
    """The places of what the rows of a document name, as (file, name), with their lines; what is no definition is said."""
    found = {}
    for number, names, files in rows(document):
        for name in names:
            places = [(file, name) for file in files if stands_in(name, file)]
            if not places:
                said.append(f"{document}:{number}: {name} stands in no {', '.join(files)}")
            for place in places:
                found.setdefault(place, []).append(number)
    return found


def check():
    """What docs/THEOREM.md and docs/LAWS.md say that is not so."""
    said = []
    theorem, laws = listed("THEOREM.md", said), listed("LAWS.md", said)
    places = {(file_of(place), place[2]): place for place in reached() if file_of(place)}
    said += [f"THEOREM.md has no row for {name} of {file}, which run reaches" for file, name in sorted(set(places) - set(theorem))]
    said += [f"THEOREM.md:{theorem[it][0]}: run does not reach {it[1]} of {it[0]}" for it in sorted(set(theorem) - set(places))]
    said += [f"LAWS.md:{laws[it][0]}: {it[1]} of {it[0]} is reached by run, and stands in THEOREM.md" for it in sorted(set(laws) & set(places))]
    others = {(f"{crate}/specs/{module.replace('.', '/')}.antt", name) for (crate, module), spec in SPECS.items() for name in spec.names()}
    others = {it for it in others - set(theorem) - set(laws) if "/Inside/" not in it[0]}
    said += [f"neither THEOREM.md nor LAWS.md has a row for {name} of {file}" for file, name in sorted(others) if not set(places) & {(file, name)}]
    for document, found in ("THEOREM.md", theorem), ("LAWS.md", laws):
        said += [f"{document}:{lines[1]}: {name} of {file} stands in line {lines[0]} too" for (file, name), lines in sorted(found.items()) if len(lines) > 1]
    for it in sorted(set(theorem) & set(places)):
        for other in cited_by(*places[it]):
            before = (file_of(other), other[2])
            if before[0] != it[0] and before in theorem and theorem[before][0] > theorem[it][0]:
                said.append(f"THEOREM.md:{theorem[it][0]}: {it[1]} rests on {before[1]}, which comes later, in line {theorem[before][0]}")
    return said, len([it for it in places if it[0].endswith(".antt")]), len([it for it in places if it[0].endswith(".rt")])


def lines_above(lines, at, sign):
    """Where the comment above a line begins."""
    while at and lines[at - 1].startswith(sign):
        at -= 1
    return at


def definition(path, name):
    """A definition of a file of specs/, with the comment above it, to the letter."""
    lines = (CRATES / path).read_text().split("\n")
    heads = [(at, found.group(2)) for at, line in enumerate(lines) if line and not line[0].isspace() and not line.startswith("use ") and (found := HEAD.match(line))]
    first = next(at for at, it in heads if it == name)
    last = max(at for at, it in heads if it == name)
    end = next((at for at in range(last + 1, len(lines)) if not lines[at].strip()), len(lines))
    return lines[lines_above(lines, first, "--") : end]


def declaration(path, name):
    """A type or constant of a file of src/, with the comment above it, to the letter."""
    lines = (CRATES / path).read_text().split("\n")
    first = next(at for at, line in enumerate(lines) if re.match(rf"pub (?:const|enum|struct) {re.escape(name)}\b", line))
    end = next(at for at in range(first, len(lines)) if lines[at] in ("}", "];") or lines[at].endswith(";") and not lines[at].startswith(" "))
    comment = lines_above(lines, first, ("///", "#["))
    return [line for line in lines[comment:first] if not line.startswith("#[")] + lines[first : end + 1]


def contract(path, call):
    """The signature of a function of a file of src/ with its clauses, to the letter."""
    lines = clauses(path, call)[0].split("\n")
    return [line.removesuffix(" ") for line in lines]


def clause_of(path, call, name):
    """One clause of a function, without its indentation."""
    lines = contract(path, call)
    first = next(at for at, line in enumerate(lines) if line.startswith(f"    ensures {name} {{"))
    end = next((at for at in range(first + 1, len(lines)) if not lines[at].startswith("        ")), len(lines))
    return [line[4:] for line in lines[first:end]]


def quoted(path, names):
    """What a quotation of these names of a file says."""
    if path.endswith(".antt"):
        blocks = [definition(path, name) for name in names]
    elif re.search(rf"(?m)^pub fn {names[0]}\b", (CRATES / path).read_text()):
        blocks = [contract(path, names[0])] if len(names) == 1 else [clause_of(path, names[0], name) for name in names[1:]]
    else:
        blocks = [declaration(path, name) for name in names]
    return "\n\n".join("\n".join(block) for block in blocks)


QUOTATION = re.compile(r"(?ms)^```(?:antt|rust) (ct_\w+/\S+) ([^\n]+)\n(.*?)^```$")


def with_quotations(text):
    """A document with its quotations as the sources have them."""
    return QUOTATION.sub(lambda it: it[0][: it.start(3) - it.start()] + quoted(it[1], it[2].split()) + "\n```", text)


def quotations(document):
    """What a document quotes: (file, name)."""
    return [(path, name) for path, names, _ in QUOTATION.findall((TOP / "docs" / document).read_text()) for name in names.split()]


def lines_of(places):
    """How many lines definitions have that are not blank."""
    return sum(1 for crate, module, name in places if is_definition((crate, module, name)) for line in SPECS[crate, module].blocks[name].split("\n") if line.strip())


# The layers of the theorem: what each says, and the definition, or the clause of `run`, that it goes from. Each is counted without those before it.
LAYERS = [
    ("truth", "what `show`, `table` and `list` print is true: `true_bounds`", "true_bounds"),
    ("best", "the rules, derivations by them, and best bounds: `IsBest`", ("ct_rules", "Derivation", "IsBest")),
    ("accepted", "when a document is accepted, and the first reason against it: `submitted`", ("ct_piece", "Submission", "submitted")),
    ("texts", "the bytes of every reply of a session: `IsRun`", ("ct_session", "Run", "IsRun")),
    ("other modes", "`verify`, `find` and `sample`, faults, and the command line", None),
]


def layers():
    """The layers with what each has that none before it has."""
    text, known = clauses(RUN, "run")
    before, found = set(), []
    for name, says, begin in LAYERS:
        if begin == "true_bounds":
            places = reached_by("\n".join(clause_of(RUN, "run", begin)), known)
        else:
            places = reached_by("", {}, [begin]) if begin else reached()
        found.append((name, says, {it for it in places - before if is_definition(it)}))
        before |= places
    return found


def layer_rows():
    """The table of the layers, as docs/THEOREM.md has it."""
    rows = [f"| {name} | {says} | {len(places)} | {lines_of(places)} |" for name, says, places in layers()]
    return "\n".join(["| layer | says | definitions | lines |", "|---|---|---|---|", *rows]) + "\n"


TABLE = re.compile(r"(?ms)^\| layer \| says \| definitions \| lines \|\n.*?(?=^\n|\Z)")

# The most definitions, and lines of them, that docs/STATEMENT.md may have.
MOST_DEFINITIONS, MOST_LINES = 80, 220


def written(document):
    """A document with its quotations and its table of layers as the sources have them."""
    return TABLE.sub(lambda it: layer_rows(), with_quotations((TOP / "docs" / document).read_text()))


def unlike():
    """What docs/STATEMENT.md and docs/THEOREM.md quote that the sources don't have so, and what they should quote and don't."""
    said = [f"{document} does not quote the sources to the letter: bench/believed.py --write writes it anew" for document in ("STATEMENT.md", "THEOREM.md")
            if written(document) != (TOP / "docs" / document).read_text()]
    statement = quotations("STATEMENT.md")
    places = reached_by("\n".join(clause_of(RUN, "run", "true_bounds")), clauses(RUN, "run")[1])
    wanted = {(file_of(it), it[2]) for it in places if file_of(it)} | {(RUN, "run"), (RUN, "true_bounds")}
    said += [f"STATEMENT.md does not quote {name} of {path}, which true_bounds reaches" for path, name in sorted(wanted - set(statement))]
    said += [f"STATEMENT.md quotes {name} of {path}, which true_bounds does not reach" for path, name in sorted(set(statement) - wanted)]
    said += [f"STATEMENT.md quotes {name} of {path} twice" for path, name in sorted({it for it in statement if statement.count(it) > 1})]
    sizes = len([it for it in places if is_definition(it)]), lines_of(places)
    if sizes[0] > MOST_DEFINITIONS or sizes[1] > MOST_LINES:
        said.append(f"STATEMENT.md has {sizes[0]} definitions of {sizes[1]} lines, more than {MOST_DEFINITIONS} or {MOST_LINES}")
    said += [f"THEOREM.md does not quote the clauses of {call}" for path, call in ((RUN, "run"), (ANSWER, "answer")) if (path, call) not in quotations("THEOREM.md")]
    return said, sizes


def main():
    if sys.argv[1:] == ["--check"]:
        said, definitions, others = check()
        differs, sizes = unlike()
        print("\n".join([*said, *differs, f"run rests on {definitions} definitions, and {others} types, traits and constants of src/: " + ("see above" if said else "THEOREM.md lists just these"),
                         f"true_bounds rests on {sizes[0]} definitions of {sizes[1]} lines: " + ("see above" if differs else "STATEMENT.md quotes just these")]))
        sys.exit(bool(said or differs))
    if sys.argv[1:] == ["--write"]:
        for document in ("STATEMENT.md", "THEOREM.md"):
            (TOP / "docs" / document).write_text(written(document))
        return
    found = reached()
    for place in sorted(place for place in found if is_definition(place)):
        print(f"{file_of(place)}: {place[2]}: {SPECS[place[:2]].comments[place[2]]}")
    print(f"{sum(map(is_definition, found))} definitions of {sum(len(spec.blocks) for spec in SPECS.values())}, with {lines_of(found)} lines")
    print("; ".join(f"{name}: {len(places)} definitions, {lines_of(places)} lines" for name, _, places in layers()))
    doubled = [it for it in {place[2] for place in found if is_definition(place)} if len([place for place in found if is_definition(place) and place[2] == it]) > 1]
    print(f"{len(doubled)} names that several of them have: {', '.join(sorted(doubled))}")


main()

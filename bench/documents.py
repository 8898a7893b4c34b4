#!/usr/bin/env python3
"""Checks what the documents say of the code: that each name in backticks in PROOFS, THEOREM and LAWS is one of the crates' sources, that each
file that these and RULES name is there, that each page `NAME.md` that a file of the repository names is there, that no cell of a table of clauses
has more than 120 characters, that THEOREM counts what the programs of known answers try, that README has at most 90 lines, and that what owns memory
gives it back, as CONTRIBUTING says: a drop that is written out names each field as `_` and does no more, and no source forgets a value. Prints what
is not so, and then ends with 1. `bench/believed.py --check` compares the definitions of THEOREM with those that `run` reaches."""

import fnmatch
import re
import sys
from pathlib import Path

TOP = Path(__file__).resolve().parent.parent
CRATES = TOP / "crates"
# The files of the crates, by their paths.
FILES = [str(file) for part in ("src", "specs", "proofs") for file in CRATES.glob(f"*/{part}/**/*.*")]
# Words of the languages and of goals, which no source of the repository defines.
KNOWN = {"abbrev", "let", "rw", "_", "Copy", "Ok", "Err", "field-0-is", "toml", "clap", "yes", "no", "D"}

# A written-out drop without its spaces: one pattern, or one for each variant, with `_` for each field.
PATTERN = r"[A-Z]\w*(?:::[A-Z]\w*)?(?:\{(?:\w+:_,?)+\}|\((?:_,?)+\))"
DROP = rf"fndrop\(self\)\{{(?:let{PATTERN}=self;|matchself\{{(?:{PATTERN}(?:\|{PATTERN})*=>\{{\}},?)+\}})\}}"
# What ends a value without giving its memory back.
FORGETS = r"\b(?:mem::forget|ManuallyDrop|leak|into_raw|into_raw_parts)\b"

said = []


def sources(*kinds):
    """The sources of the repository's crates, by their path below crates/."""
    files = [file for kind in kinds for file in CRATES.glob(f"*/{kind}/**/*") if file.suffix in (".rt", ".antt")]
    return {str(file.relative_to(CRATES)): file.read_text() for file in files}


def names_in(text):
    """What stands in backticks."""
    return re.findall(r"`([^`]+)`", text)


def cells(line):
    """The cells of a row of a table."""
    return [cell.strip() for cell in line.strip().strip("|").split("|")] if line.startswith("|") else []


def document(name):
    """The lines of a document, with their numbers."""
    return list(enumerate((TOP / "docs" / name).read_text().split("\n"), 1))


def check_files(name):
    """Each file that is named is there, in the crate that its row, or the path before it, names."""
    for number, line in document(name):
        crate, folder = "", ""
        for path in re.findall(r"[\w/*]+\.(?:antt|rt)", line):
            if path.startswith(("ct_", "crates/")):
                path = path.removeprefix("crates/")
                crate, folder = path.split("/")[0], path.rsplit("/", 1)[0]
                found = list(CRATES.glob(path))
            else:
                found = list(CRATES.glob(f"{folder}/{path}")) if folder else fnmatch.filter(FILES, "*/" + path)
            if not found:
                said.append(f"{name}:{number}: no file {path}")


def defined():
    """The names that the sources define: definitions, lemmas, fields, functions, types, clauses; and those that they import."""
    text = "\n".join(sources("specs", "src", "proofs").values())
    patterns = [
        r"(?m)^\s*(?:(?:abbrev|unfoldable|opaque|pub|record|data) )*([^\s:(){}]+)(?: \{[^}]*\}| \([^)]*\))* *:",
        r"\b(?:record|data|fn|enum|struct|trait|const|static|mod|type|ghost) ([^\s:(){}<]+)",
        r"(?m)^\s*(?:abbrev |unfoldable |opaque )?pub (\S+)",
        r"\b(?:ensures|requires|invariant) (\w+) \{",
    ]
    imported = {name.strip() for names in re.findall(r"\buse Rattle\.[\w.]+\.\{([^}]*)\}", text) for name in names.split(",")}
    return {name for pattern in patterns for name in re.findall(pattern, text)} | imported


def check_names(name, names):
    """Each word in backticks that has the form of a name is one that the sources define."""
    fenced = False
    for number, line in document(name):
        fenced ^= line.startswith("```")
        for told in [] if fenced else names_in(line):
            last = told.split("::")[-1]
            if re.fullmatch(r"[A-Za-z_][\w-]*(::\w+)*", told) and last not in names | KNOWN and not (CRATES / last).is_dir():
                said.append(f"{name}:{number}: nothing is named {told}")


def check_cells(name, end):
    """No cell of a table of clauses, which stand before a heading, is long."""
    for number, line in document(name):
        if line == end:
            return
        said.extend(f"{name}:{number}: a cell of {len(cell)} characters" for cell in cells(line) if len(cell) > 120)


def check_pages():
    """Each page that is named is there: below the root, or in docs/, or beside the file that names it."""
    for path in sorted(TOP.rglob("*")):
        file = path.relative_to(TOP)
        if {"out", ".git", "__pycache__"} & set(file.parts) or not path.is_file():
            continue
        if path.suffix not in (".md", ".py", ".sh", ".rt", ".antt", ".toml", ".session", ".cff", ""):
            continue
        for page in set(re.findall(r"(?<![\w/.-])((?:[\w-]+/)*[A-Z]{4,}\.md)", path.read_text(errors="ignore"))):
            if page != "NAME.md" and not any((folder / page).exists() for folder in (TOP, TOP / "docs", path.parent)):
                said.append(f"{file}: no page {page}")


def check_counts():
    """How many derivations and duals are known is what the programs that try them write."""
    text = (TOP / "docs" / "THEOREM.md").read_text()
    for crate, line, what in ("ct_rows", 1, "derivations"), ("ct_finder_tests", 0, "duals"):
        count = (CRATES / crate / "stdout").read_text().splitlines()[line].split()[0]
        if f"{count} {what}" not in text:
            said.append(f"THEOREM.md: {crate} tries {count} {what}")


def check_drops():
    """Each drop that is written out takes the value apart and does no more, and no value is forgotten: no clause speaks of memory that is lost."""
    for file, text in sources("src").items():
        for name, body in re.findall(r"(?m)^impl.*\bDrop for (\S+).* \{\n((?:    .*\n|\n)*)\}", text):
            if not re.fullmatch(DROP, re.sub(r"\s", "", body)):
                said.append(f"{file}: the drop of {name} does more, or less, than to take it apart")
        said.extend(f"{file}: {found}" for found in re.findall(FORGETS, text))


def main():
    names = defined()
    for name in ("PROOFS.md", "THEOREM.md", "LAWS.md", "RULES.md"):
        check_files(name)
    for name in ("PROOFS.md", "THEOREM.md", "LAWS.md"):
        check_names(name, names)
    check_cells("THEOREM.md", "## What is only tested")
    check_cells("LAWS.md", "## Definitions that only these cite")
    check_pages()
    check_counts()
    check_drops()
    lines = (TOP / "README.md").read_text().count("\n")
    if lines > 90:
        said.append(f"README.md: {lines} lines")
    print("\n".join(said) or "the documents name what there is")
    sys.exit(bool(said))


main()

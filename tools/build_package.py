#!/usr/bin/env python3
"""Builds the package for pip, which calls it as pyproject.toml says: `pip install ./tools`. It needs nothing but Python, and no network.

    tools/build_package.py FOLDER
    tools/build_package.py FOLDER --program crates/ct_program/out/ct_program

puts the wheel and the source distribution into FOLDER. The wheel carries the tools and the library. Where a program is named, or the repository
has built one, it is a platform wheel, which carries that too, with the record of what it was built from (FILE.origin), and what it answers to the
commands `table` over the library. pip names another program by `--config-settings program=FILE`."""

import argparse
import base64
import contextlib
import hashlib
import io
import os
import sys
import sysconfig
import tarfile
import tomllib
import zipfile
from pathlib import Path

HERE = Path(__file__).resolve().parent
# The repository, or the unpacked source distribution, in which all lies in one folder.
TOP = HERE if (HERE / "examples/library").is_dir() else HERE.parent
sys.path.insert(0, str(HERE))

from code_tables import answers, program, sessions

# What is no tool for people; of the other files those that Python, GAP or a page reads.
NO_TOOLS = ("build_package.py", "pyproject.toml", "test.py", "screenshots.py")
SUFFIXES = (".py", ".typed", ".json", ".toml", ".css", ".js", ".bib", ".csv", ".tsv", ".txt", ".g")
TIME = 315532800


def project():
    """The table `project` of pyproject.toml."""
    return tomllib.loads((HERE / "pyproject.toml").read_text("utf-8"))["project"]


def stem():
    """The name and the version, as names of files have them."""
    told = project()
    return f"{told['name'].replace('-', '_')}-{told['version']}"


def described():
    """The text that describes the package: its metadata, and README."""
    told = project()
    rows = [("Metadata-Version", "2.4"), ("Name", told["name"]), ("Version", told["version"]), ("Summary", told["description"]),
            ("Author", ", ".join(author["name"] for author in told["authors"])), ("Keywords", ",".join(told["keywords"])),
            ("License-Expression", told["license"]), *(("License-File", name) for name in told["license-files"]),
            *(("Classifier", text) for text in told["classifiers"]), ("Requires-Python", told["requires-python"]),
            ("Description-Content-Type", "text/markdown; charset=UTF-8")]
    return "".join(f"{key}: {value}\n" for key, value in rows) + "\n" + (TOP / told["readme"]).read_text("utf-8")


def entry_points():
    """The commands that the package installs."""
    return "[console_scripts]\n" + "".join(f"{name} = {place}\n" for name, place in project()["scripts"].items())


def modules():
    """The files of the package itself, by their names."""
    return {path.name: path for path in sorted((HERE / "code_tables").iterdir()) if path.suffix in SUFFIXES}


def tools():
    """The files of the tools and of what they read, by their names."""
    return {path.name: path for path in sorted(HERE.iterdir()) if path.suffix in SUFFIXES and path.name not in NO_TOOLS}


def library():
    """The sessions of the library."""
    found = sorted((TOP / "examples/library").glob("*.session"))
    if not found:
        raise SystemExit(f"build_package: {TOP}/examples/library has no sessions: build from the whole repository or from the source distribution")
    return found


def built(settings=None):
    """The file of the program to carry: the one that is named, or the one that the repository has built; None where there is none."""
    named = (settings or {}).get("program")
    file = Path(named) if named else TOP / program.BUILT
    if named and not file.is_file():
        raise SystemExit(f"build_package: {named} is no file: name the built program itself")
    return file if file.is_file() else None


@contextlib.contextmanager
def named(file):
    """Runs a file as the program."""
    before = os.environ.get("CODE_TABLES")
    os.environ["CODE_TABLES"] = str(file)
    try:
        yield
    finally:
        os.environ.pop("CODE_TABLES")
        if before is not None:
            os.environ["CODE_TABLES"] = before


def answered(file):
    """What a program answers over the library: its checksum and that of the sessions, and the bounds of each entry as it writes them."""
    whole = sessions.read_sessions(library()) + "".join(f"{command}\n" for command in sessions.every_table())
    with named(file):
        output = program.run(whole)
    lines = []
    for command, reply in sessions.replies(sessions.commands(whole), output):
        if command.words[0] == "submit" and not (reply and reply[0].startswith(f"accepted {command.id}")):
            raise SystemExit(f"build_package: {file} doesn't accept {command.id} of the library: {' '.join(reply)}")
        lines += reply if command.words[0] == "table" else []
    return answers.head(file, library()) + "".join(f"{line}\n" for line in lines)


def carried(file):
    """What a wheel carries besides the package, by its place there: tools and library, and of a platform wheel the program with its record and answers."""
    found = {f"tools/{name}": path.read_bytes() for name, path in tools().items()} | {f"library/{path.name}": path.read_bytes() for path in library()}
    if file:
        record = file.with_name(file.name + ".origin")
        found |= {"program/code_tables": file.read_bytes(), "answers.txt": answered(file).encode("ascii")}
        found |= {"program/code_tables.origin": record.read_bytes()} if record.is_file() else {}
    return {f"code_tables/carried/{name}": data for name, data in found.items()}


def tag(file):
    """The tag of the wheel: that of this platform where it carries a program."""
    return "py3-none-" + (sysconfig.get_platform().replace("-", "_").replace(".", "_") if file else "any")


def build_wheel(wheel_directory, config_settings=None, metadata_directory=None):
    """Writes the wheel to a folder, and gives its name."""
    file, name = built(config_settings), stem()
    files = {f"code_tables/{place}": path.read_bytes() for place, path in modules().items()} | carried(file)
    info = f"{name}.dist-info"
    files |= {f"{info}/licenses/{place}": (TOP / place).read_bytes() for place in project()["license-files"]}
    files |= {f"{info}/METADATA": described().encode(), f"{info}/entry_points.txt": entry_points().encode(),
              f"{info}/WHEEL": f"Wheel-Version: 1.0\nGenerator: build_package\nRoot-Is-Purelib: {'false' if file else 'true'}\nTag: {tag(file)}\n".encode()}
    sums = [f"{place},sha256={base64.urlsafe_b64encode(hashlib.sha256(data).digest()).rstrip(b'=').decode()},{len(data)}\n" for place, data in files.items()]
    files[f"{info}/RECORD"] = "".join([*sums, f"{info}/RECORD,,\n"]).encode()
    wheel = f"{name}-{tag(file)}.whl"
    with zipfile.ZipFile(Path(wheel_directory, wheel), "w", zipfile.ZIP_DEFLATED) as archive:
        for place, data in files.items():
            entry = zipfile.ZipInfo(place, (1980, 1, 1, 0, 0, 0))
            entry.compress_type = zipfile.ZIP_DEFLATED
            entry.external_attr = (0o100755 if place.endswith("program/code_tables") else 0o100644) << 16
            archive.writestr(entry, data)
    return wheel


def build_sdist(sdist_directory, config_settings=None):
    """Writes the source distribution to a folder, and gives its name: all that the wheel without a program is built of."""
    name = stem()
    files = {"PKG-INFO": described().encode()} | {place: (TOP / place).read_bytes() for place in [*project()["license-files"], "README.md", "CITATION.cff"]}
    files |= {path.name: path.read_bytes() for path in [HERE / "pyproject.toml", HERE / "build_package.py", *tools().values()]}
    files |= {f"code_tables/{place}": path.read_bytes() for place, path in modules().items()}
    files |= {f"examples/library/{path.name}": path.read_bytes() for path in library()}
    with tarfile.open(Path(sdist_directory, f"{name}.tar.gz"), "w:gz", format=tarfile.PAX_FORMAT) as archive:
        for place, data in sorted(files.items()):
            entry = tarfile.TarInfo(f"{name}/{place}")
            entry.size, entry.mtime, entry.mode = len(data), TIME, 0o644
            archive.addfile(entry, io.BytesIO(data))
    return f"{name}.tar.gz"


def main():
    parser = argparse.ArgumentParser(description=__doc__, formatter_class=argparse.RawDescriptionHelpFormatter)
    parser.add_argument("folder", metavar="FOLDER", type=Path, help="where the wheel and the source distribution go")
    parser.add_argument("--program", metavar="FILE", help="the built program to carry (that of the repository)")
    options = parser.parse_args()
    options.folder.mkdir(parents=True, exist_ok=True)
    for name in (build_wheel(options.folder, {"program": options.program}), build_sdist(options.folder)):
        print(options.folder / name)


if __name__ == "__main__":
    main()

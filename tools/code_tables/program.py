"""The built program: which one it is, and what it answers.

The variable CODE_TABLES of the environment names it: one path, spaces and all, or a command. Where it isn't set, or is empty, the program is
that of a platform wheel, which carries it, or the repository's own, `./code_tables`, which is proved and built at its first use."""

import os
import shutil
import subprocess
from pathlib import Path

from . import places
from .sessions import Refusal

# Where the launcher of a repository puts the program that it built.
BUILT = Path("crates/ct_program/out/ct_program")


def program() -> str:
    """What starts the program: what CODE_TABLES names, the program that the wheel carries, or the launcher of the repository."""
    named = os.environ.get("CODE_TABLES", "")
    if named:
        if os.path.isdir(named):
            raise Refusal(f"CODE_TABLES names a folder, {named}: give it the path of the built program itself")
        return named
    carried, launcher = places.carried_program(), os.path.join(places.REPOSITORY, "code_tables")
    if carried is None and not os.path.isfile(launcher):
        raise Refusal("no program is named: set CODE_TABLES to the path of a built one, or install the wheel of a release, which carries one")
    return carried or launcher


def file() -> Path | None:
    """The file of the program itself: of a repository's launcher, the program that it built. None where there is no such file."""
    found = shutil.which(program())
    if found is None:
        return None
    started = Path(found).resolve()
    if started.name != "code_tables" or not (started.parent / "crates.txt").is_file():
        return started
    built = started.parent / BUILT
    return built if built.is_file() else None


def answer(mode: str, text: str) -> tuple[str, int]:
    """What the program writes in a mode (`session`, `verify`, `find`) to a text, and the number with which it ends."""
    try:
        ended = subprocess.run([program(), mode], input=text.encode("utf-8", "surrogateescape"), stdout=subprocess.PIPE)
    except OSError as fault:
        raise Refusal(f"the program {program()} can't be started: {fault.strerror}") from None
    return ended.stdout.decode("utf-8", "surrogateescape"), ended.returncode


def run(text: str, mode: str = "session") -> str:
    """What the program answers in a mode, where it read all of the input."""
    said, status = answer(mode, text)
    if status not in (0, 1):
        raise Refusal(f"the program ended with the status {status}, which docs/FORMATS.md explains")
    return said

"""Where the package finds what belongs to it: in a wheel all of it lies within the package, in `carried`; in the repository it lies beside it."""

import os
from types import ModuleType

PACKAGE = os.path.dirname(os.path.realpath(__file__))
# What a wheel carries besides the modules: the tools with their data, the library, and in a platform wheel the program and its answers.
CARRIED = os.path.join(PACKAGE, "carried")
# The repository, where this file is part of one.
REPOSITORY = os.path.dirname(os.path.dirname(PACKAGE))


def tools() -> str:
    """The folder of the tools that are run as scripts, and of the files that they read."""
    return os.path.join(CARRIED, "tools") if os.path.isdir(CARRIED) else os.path.dirname(PACKAGE)


def library() -> list[str]:
    """The sessions of the library, in the order in which they are run; none where the library isn't there."""
    folder = os.path.join(CARRIED, "library") if os.path.isdir(CARRIED) else os.path.join(REPOSITORY, "examples/library")
    names = sorted(os.listdir(folder)) if os.path.isdir(folder) else []
    return [os.path.join(folder, name) for name in names if name.endswith(".session")]


def carried_program() -> str | None:
    """The program that a platform wheel carries; None where there is none."""
    file = os.path.join(CARRIED, "program/code_tables")
    return file if os.path.isfile(file) else None


def carried_answers() -> str:
    """The answers over the library that a platform wheel carries beside the program."""
    return os.path.join(CARRIED, "answers.txt")


def tool(name: str) -> ModuleType:
    """A tool, as a module."""
    import importlib
    import sys
    if tools() not in sys.path:
        sys.path.insert(0, tools())
    return importlib.import_module(name)

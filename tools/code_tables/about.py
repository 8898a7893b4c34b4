"""Who made the program, which version this is, and what may be done with it: what CITATION.cff, pyproject.toml and LICENSE say, with which a test
compares it."""

TITLE = "code_tables: a proved table of bounds on the sizes of binary codes"
AUTHOR = "The maintainers of code_tables"
VERSION = "0.9"
LICENSE = "MIT or Apache-2.0"

"""A table of bounds of A(n,d) and A(n,d,w) that is kept by a proved program, from Python.

    >>> from code_tables import bounds, submit, explain, verify
    >>> bounds(17, 6)
    Bounds(lower=256, upper=340)
    >>> bounds(17, 6, empty=True)
    Bounds(lower=48, upper=428)
    >>> verify(explain("upper", 9, 4))
    'yes'

`bounds`, `submit` and `explain` ask a session that all calls share, over the library, or with `empty=True` one over the empty table. `Session` is a
session of its own, and `verify` checks a derivation anew. The variable CODE_TABLES of the environment names the built program; where it isn't
set, a platform wheel runs the program that it carries, and the repository its ./code_tables. Nothing here is proved: each number is one that the
program wrote, each reply is compared with what was asked, and the program checks what is handed in. The command `code-tables` does the same
from a shell."""

import sys

if sys.version_info < (3, 11):
    sys.exit("code_tables: Python 3.11 or later is needed, and this is %d.%d" % sys.version_info[:2])

# As in typing, which takes long to import.
TYPE_CHECKING = False
if TYPE_CHECKING:
    from .answers import Bounds
    from .first import bounds
    from .live import Piece, Refusal, Refused, Session, explain, submit, verify

__all__ = ["Bounds", "Piece", "Refusal", "Refused", "Session", "bounds", "explain", "submit", "verify"]


def __getattr__(name: str) -> object:
    """What the package has, read when it is first asked for: a first answer needs little of it."""
    if name not in __all__:
        raise AttributeError(f"module {__name__!r} has no attribute {name!r}")
    if name in ("Bounds", "bounds"):
        from . import first as home
    else:
        from . import live as home
    return globals().setdefault(name, getattr(home, name))

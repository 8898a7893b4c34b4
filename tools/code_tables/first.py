"""What answers first: bounds over the library, which a platform wheel carries. All else is left to `live` and to `cli`, which import more."""

import sys
from contextlib import suppress

from . import answers
from .answers import Bounds


def bounds(n: int, d: int, w: int | None = None, *, empty: bool = False) -> Bounds:
    """The bounds of A(n,d), or of A(n,d,w), over the library and what was submitted to the shared session; with `empty` over nothing else than
    what was submitted with `empty`.

        >>> bounds(17, 6)
        Bounds(lower=256, upper=340)
        >>> bounds(17, 6, empty=True)
        Bounds(lower=48, upper=428)
        >>> bounds(24, 8, 8).is_exact
        True
    """
    live = sys.modules.get(f"{__package__}.live")
    told = answers.bounds(n, d, w) if not empty and (live is None or not live.is_begun()) else None
    if told is not None:
        return told
    from .live import shared
    return shared(empty).bounds(n, d, w)


def at_once(words: list[str]) -> list[str]:
    """The lines that answer `show N D [W]` or `table D [W]` over the library, where they are known without the program; else none."""
    if not words or not all(word.isascii() and word.isdigit() for word in words[1:]):
        return []
    command, *numbers = words
    if command == "show" and len(numbers) in (2, 3):
        line = answers.line(*map(int, numbers))
        return [line] if line else []
    return answers.column(*map(int, numbers)) if command == "table" and len(numbers) in (1, 2) else []


def main() -> None:
    """The command `code-tables`: bounds are answered at once where the wheel carries the answer."""
    lines = at_once(sys.argv[1:])
    if lines:
        # Where nobody reads, the whole command is left to end as it does.
        with suppress(BrokenPipeError):
            print("\n".join(lines), flush=True)
            return
    from .cli import main
    main()

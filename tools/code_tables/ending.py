"""How a tool ends where its reader is gone or somebody stops it: without a traceback."""

import os
import signal
import sys
from collections.abc import Callable
from pathlib import Path

# The statuses with which a shell says that a program was ended by a signal.
STOPPED, UNREAD = 128 + signal.SIGINT, 128 + signal.SIGPIPE


def ended(main: Callable[[], None]) -> None:
    """Runs the main function of a tool. After Ctrl-C it says that it was stopped; where nobody reads its output any more, it says nothing."""
    try:
        try:
            main()
        finally:
            sys.stdout.flush()
    except BrokenPipeError:
        # What is left in the buffer goes nowhere, or Python would say so at its end.
        os.dup2(os.open(os.devnull, os.O_WRONLY), sys.stdout.fileno())
        sys.exit(UNREAD)
    except KeyboardInterrupt:
        print(f"{Path(sys.argv[0]).stem}: stopped", file=sys.stderr)
        sys.exit(STOPPED)

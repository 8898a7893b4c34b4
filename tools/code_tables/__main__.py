"""Runs the command `code-tables`, as `python3 -m code_tables`."""

from .first import main

if __name__ == "__main__":
    main()

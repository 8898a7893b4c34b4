#!/usr/bin/env python3
"""Runs a session, and keeps the pieces that stand at its end, with their sources, as a session that can be run again.

    $ tools/keep.py examples/six-words.session six-words.kept
    accepted hexa size 6
    A(10,6) = 6

Replies go to standard output. KEPT (SESSION.kept, where it isn't given) gets what `dump` prints at the end, documents with what they cite as
they were handed in, and above each piece the remarks that stand right above its submission in SESSION. It is written only when all of it is there: a file of that name stays as it is where the
program fails, or the session ends within a document. Ends as the program does, or with 2 where the words are wrong and 125 where nothing was
kept. CODE_TABLES names another program than the repository's."""

import argparse
import os
import sys
from pathlib import Path

from code_tables import program, sessions
from code_tables.ending import ended
from code_tables.sessions import Refusal


def kept(text):
    """The replies of a session, and the session that is kept."""
    commands = sessions.commands(text)
    if commands and commands[-1].words[0] == "submit" and commands[-1].document is None:
        raise Refusal("the session ends within a document")
    whole = text + ("" if not text or text.endswith("\n") else "\n") + "dump\n"
    output = program.run(whole)
    *answered, (_, dump) = sessions.replies(sessions.commands(whole), output)
    said = "".join(f"{line}\n" for _, reply in answered for line in reply)
    if not dump or said + "".join(f"{line}\n" for line in dump) != output:
        raise Refusal("the replies aren't those to this session")
    remarks = {command.id: command.remarks for command, reply in answered if reply[0].startswith("accepted ")}
    return said, "".join(f"{line}\n" for line in with_remarks(dump, remarks)), any(is_refusal(*pair) for pair in answered)


def is_refusal(command, reply):
    """Whether a reply is a refusal."""
    return reply[0].startswith("refused ") and command.words != ["ledger"]


def with_remarks(dump, remarks):
    """The lines of a dump, with the remarks of each piece above it."""
    yield dump[0]
    at = 1
    while at < len(dump):
        words = sessions.words_of(dump[at])
        behind = at + 1 + int(words[3])
        yield ""
        yield from (f"# {remark}".rstrip() for remark in remarks[words[1]])
        yield from dump[at:behind]
        at = behind


def main():
    parser = argparse.ArgumentParser(description=__doc__, formatter_class=argparse.RawDescriptionHelpFormatter)
    parser.add_argument("session", metavar="SESSION", help="the session")
    parser.add_argument("kept", metavar="KEPT", nargs="?", type=Path, help="the file that is written (SESSION.kept)")
    options = parser.parse_args()
    place = options.kept or Path(options.session + ".kept")
    new = place.with_name(place.name + ".new")
    try:
        said, text, refused = kept(sessions.read_text(options.session))
        sys.stdout.buffer.write(said.encode("utf-8", "surrogateescape"))
        sys.stdout.flush()
        new.write_bytes(text.encode("utf-8", "surrogateescape"))
        os.replace(new, place)
    except (Refusal, OSError) as fault:
        print(f"keep: refused: {fault}; {place} stays as it is", file=sys.stderr)
        sys.exit(125)
    sys.exit(refused)


if __name__ == "__main__":
    ended(main)

"""Where the program that answers comes from, as a citation states it.

The checksum is that of the program's file. The commit of its sources, and the toolchain that proved and built it, are stated only where the
record beside the program holds them: `./code_tables` writes it, as FILE.origin, when it has built the program. A record of another file
counts for nothing, and neither the commit of this checkout nor the toolchain of this machine says anything of the program."""

import hashlib
from dataclasses import dataclass
from pathlib import Path

from . import program

UNKNOWN = "unknown"


@dataclass(frozen=True)
class Provenance:
    """The SHA-256 of the program's file, the commit of its sources, and the toolchain with the hash of its logic; each may be `unknown`."""
    program: str = UNKNOWN
    commit: str = UNKNOWN
    toolchain: str = UNKNOWN

    def fields(self) -> dict[str, str]:
        """The three by their names, in order."""
        return {"program": self.program, "commit": self.commit, "toolchain": self.toolchain}


def record(file: Path) -> dict[str, str]:
    """What the record beside a program says: a word and its value a line."""
    try:
        lines = file.with_name(file.name + ".origin").read_text("utf-8").splitlines()
    except (OSError, UnicodeDecodeError):
        return {}
    return {word: value for word, _, value in (line.partition(" ") for line in lines)}


def provenance() -> Provenance:
    """Where the program comes from that the tools run. Ask after it ran: a launcher may build it first."""
    file = program.file()
    try:
        checksum = hashlib.sha256(file.read_bytes()).hexdigest() if file else UNKNOWN
    except OSError:
        checksum = UNKNOWN
    held = record(file) if file else {}
    if checksum == UNKNOWN or held.get("program") != checksum:
        return Provenance(checksum)
    return Provenance(checksum, held.get("commit") or UNKNOWN, held.get("toolchain") or UNKNOWN)

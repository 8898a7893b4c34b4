"""The command `code-tables`: questions to the proved program from a shell, over the library unless `--empty` is given.

    $ code-tables show 17 6
    256 <= A(17,6) <= 340

Each subcommand has a description, `code-tables show -h`. The module imports little, so that a first answer comes at once: each subcommand
imports what it needs."""

import argparse
import contextlib
import os
import sys
from collections.abc import Callable, Iterator, Sequence

from . import answers, places
from .ending import ended

# As in typing, which takes long to import.
TYPE_CHECKING = False
if TYPE_CHECKING:
    from .live import Session

# After how many seconds a line says what is done, and how many pass between two.
PATIENCE, AGAIN = 2, 10
Options = argparse.Namespace


def whole(word: str) -> int:
    """The number that a word of the command line writes."""
    if not word.isascii() or not word.isdigit() or len(word) > 9:
        raise argparse.ArgumentTypeError(f"{word} is no whole number, as 17 is")
    return int(word)


def asked_entry(options: Options) -> tuple[int, ...]:
    """The entry that the numbers of the command line name, which is one of the table."""
    entry = (options.n, options.d) if options.w is None else (options.n, options.d, options.w)
    from .sessions import check_entry
    check_entry(entry)
    return entry


@contextlib.contextmanager
def progress(doing: str) -> Iterator[None]:
    """Says on standard error what is done, where it takes more than two seconds."""
    import threading
    done = threading.Event()

    def tell() -> None:
        """Says it after two seconds, and again after each ten."""
        seconds = PATIENCE
        while not done.wait(PATIENCE if seconds == PATIENCE else AGAIN):
            print(f"code-tables: {doing}: {seconds} s so far; Ctrl-C stops it", file=sys.stderr, flush=True)
            seconds += AGAIN
    threading.Thread(target=tell, daemon=True).start()
    try:
        yield
    finally:
        done.set()


def session_files(options: Options) -> list[str]:
    """The sessions that are run before the question: the library's, unless --empty is given, and those of --with."""
    from .live import found_library
    return [*(() if options.empty else found_library()), *options.more]


@contextlib.contextmanager
def session(options: Options, doing: str) -> Iterator["Session"]:
    """A session of the program over what is asked for; what is refused of it is said."""
    from .live import Session
    with progress(doing), Session(*session_files(options)) as opened:
        for command, reply in opened.refused:
            print(f"code-tables: {command} is refused: {reply}", file=sys.stderr)
        yield opened


def run_tool(name: str, arguments: Sequence[str], doing: str) -> int:
    """Runs the main function of a tool as its own command line would."""
    sys.argv = [f"code-tables {name}", *arguments]
    with progress(doing):
        places.tool(name).main()
    return 0


def read_input(file: str) -> str:
    """The text of a file, or of standard input where the name is `-`."""
    from .sessions import read_text
    return sys.stdin.buffer.read().decode("utf-8", "surrogateescape") if file == "-" else read_text(file)


def is_plain(options: Options) -> bool:
    """Whether the question is one over the library alone."""
    return not options.empty and not options.more


def show(options: Options) -> int:
    """The bounds of an entry."""
    entry = (options.n, options.d) if options.w is None else (options.n, options.d, options.w)
    line = answers.line(*entry) if is_plain(options) else None
    if line is None:
        asked = " ".join(map(str, asked_entry(options)))
        with session(options, "asking the program over the sessions") as opened:
            line = opened.ask(f"show {asked}")[0]
    print(line)
    return 0


def table(options: Options) -> int:
    """The bounds of a column."""
    lines = answers.column(options.d, options.w) if is_plain(options) else []
    if not lines:
        from .live import column_words
        from .sessions import check_entry
        check_entry((30, options.d) if options.w is None else (30, options.d, options.w))
        with session(options, "asking the program over the sessions") as opened:
            lines = opened.ask(f"table {column_words(options.d, options.w)}")
    print("\n".join(lines))
    return 0


def explain(options: Options) -> int:
    """The derivation of a bound, as `verify` reads it."""
    entry = asked_entry(options)
    with session(options, "asking the program for the derivation") as opened:
        sys.stdout.write(opened.explain(options.side, *entry))
    return 0


def list_words(options: Options) -> int:
    """The words of a code of the entry, as many as the lower bound says."""
    entry = asked_entry(options)
    with session(options, "asking the program for the words") as opened:
        words = opened.words(*entry)
    sys.stdout.writelines(f"{word}\n" for word in words)
    return 0


def verify(options: Options) -> int:
    """The program's verdict on a derivation."""
    from . import program
    text = read_input(options.file)
    with progress("the program checks the derivation"):
        said = program.run(text, "verify")
    sys.stdout.write(said)
    return 0 if said == "yes\n" else 1


def find(options: Options) -> int:
    """A dual for an upper bound, as a submission."""
    from . import program
    asked = " ".join(map(str, asked_entry(options)))
    with progress("the program looks for a dual"):
        sys.stdout.write(program.run(f"{asked}\n", "find"))
    return 0


def with_sessions(options: Options) -> list[str]:
    """The sessions as arguments of a tool, which asks for one at least."""
    return session_files(options) or [os.devnull]


def cite(options: Options) -> int:
    """How a bound is cited."""
    entry = asked_entry(options)
    arguments = [*(() if options.text else ["--bibtex"]), *map(str, entry), *with_sessions(options)]
    return run_tool("cite", arguments, "asking the program what the bounds rest on")


def page(options: Options) -> int:
    """The table as a page."""
    from .sessions import Refusal
    if sys.stdout.isatty():
        raise Refusal("the page is long: give it a file, as in: code-tables page > table.html")
    return run_tool("page", [*options.rest, *with_sessions(options)], "making the page")


def export(options: Options) -> int:
    """The table as data."""
    from .sessions import Refusal
    outputs = [word for name in ("csv", "json") if getattr(options, name) for word in (f"--{name}", getattr(options, name))]
    if not outputs:
        raise Refusal("nothing to write: give --csv FILE, --json FILE or both")
    return run_tool("table_data", [*outputs, *with_sessions(options)], "writing the table")


def improves(options: Options) -> int:
    """What the evidence of a file improves."""
    from . import improving
    text = read_input(options.file)
    name = options.id or improving.id_of(options.file)
    with progress("comparing the evidence with the table"):
        evidence = improving.evidence_of(text, name, generator=options.generator, distance=options.distance, cites=options.cite)
        told = improving.told(evidence, session_files(options))
    if options.write:
        improving.write(options.write, told)
    sys.stdout.writelines(f"{line}\n" for line in improving.lines(told, options.file, options.write))
    return 1 if told.refused else 0


def version() -> str:
    """The version of the package, and which program and library it asks."""
    from . import about, program
    from .provenance import Provenance, provenance
    from .sessions import Refusal
    try:
        place, made = program.program(), provenance()
    except Refusal as refusal:
        place, made = f"none: {refusal}", Provenance()
    rows = {"program": place, "sha256": made.program, "commit": made.commit, "toolchain": made.toolchain, "library": answers.sum_of(*places.library())}
    return "\n".join([f"code-tables {about.VERSION}", *(f"{name:10} {value}" for name, value in rows.items())])


class Version(argparse.Action):
    """Prints the version, and ends."""

    def __call__(self, parser: argparse.ArgumentParser, *rest: object) -> None:
        print(version())
        parser.exit()


def with_entry(parser: argparse.ArgumentParser) -> None:
    """An entry on the command line."""
    parser.add_argument("n", type=whole, metavar="N", help="the length, 1 to 30")
    parser.add_argument("d", type=whole, metavar="D", help="the distance, 3 to 30; even where W is given")
    parser.add_argument("w", type=whole, metavar="W", nargs="?", help="the weight, for A(N,D,W)")


def with_nothing(parser: argparse.ArgumentParser) -> None:
    """No argument of its own."""


def with_empty(parser: argparse.ArgumentParser) -> None:
    """Whether the library is left out: the option may stand before the subcommand and behind it."""
    parser.add_argument("--empty", action="store_true", default=argparse.SUPPRESS, help="over the empty table, without the library")


def with_column(parser: argparse.ArgumentParser) -> None:
    """A column of the table on the command line."""
    parser.add_argument("d", type=whole, metavar="D", help="the distance")
    parser.add_argument("w", type=whole, metavar="W", nargs="?", help="the weight, for A(N,D,W)")


def with_side(parser: argparse.ArgumentParser) -> None:
    """A bound on the command line."""
    parser.add_argument("side", choices=("lower", "upper"), help="which bound")
    with_entry(parser)


def with_file(parser: argparse.ArgumentParser) -> None:
    """A file on the command line."""
    parser.add_argument("file", metavar="FILE", help="the derivation, as explain prints it; - is standard input")


def with_citation(parser: argparse.ArgumentParser) -> None:
    """An entry, and the form of the citation."""
    with_entry(parser)
    parser.add_argument("--text", action="store_true", help="besides, what each bound rests on, as a text")


def with_outputs(parser: argparse.ArgumentParser) -> None:
    """The files of the data."""
    parser.add_argument("--csv", metavar="FILE", help="each entry with its bounds, rules and pieces")
    parser.add_argument("--json", metavar="FILE", help="the same with each derivation and document")


def with_evidence(parser: argparse.ArgumentParser) -> None:
    """A file of evidence, and what describes it."""
    parser.add_argument("file", metavar="FILE", help="words, one a line; a list as Python or GAP prints it; or submissions. - is standard input")
    parser.add_argument("--generator", action="store_true", help="the words are the rows of a generator matrix")
    parser.add_argument("--distance", type=whole, metavar="D", help="the distance to state (the least of all pairs)")
    parser.add_argument("--id", metavar="ID", help="the id of the piece (from the name of the file)")
    parser.add_argument("--cite", action="append", default=[], metavar="TEXT", help="where the code comes from, as the document cites it: up to 16 times")
    parser.add_argument("--write", metavar="NEW", help="a new file for the submission")


# Each subcommand: what it does, what more its description says, its arguments, and its function.
COMMANDS: dict[str, tuple[str, str, Callable[[argparse.ArgumentParser], None], Callable[[Options], int]]] = {
    "show": ("the bounds of A(N,D) or A(N,D,W)", "code-tables show 17 6", with_entry, show),
    "table": ("the bounds of all lengths for a distance, and a weight", "code-tables table 6", with_column, table),
    "explain": ("the derivation of a bound, which verify checks", "code-tables explain upper 16 6 | code-tables verify -", with_side, explain),
    "list": ("the words of a code, as many as the lower bound says", "code-tables list 16 6", with_entry, list_words),
    "cite": ("how a bound is cited, as BibTeX", "code-tables cite 17 6 > bounds.bib", with_citation, cite),
    "verify": ("the program's verdict on a derivation: yes, or no and why; ends with 1 at no", "code-tables verify upper.derivation", with_file, verify),
    "find": ("a dual for the upper bound, by linear programming, as a submission", "code-tables find 22 10 | code-tables improves -", with_entry, find),
    "improves": ("each entry that new evidence improves, over the library and over published values, and what to do next; ends with 1 where some is refused",
                 "code-tables improves words.txt --write new.session", with_evidence, improves),
    "page": ("the table as a page; further options are those of page.py", "code-tables page > table.html", with_nothing, page),
    "export": ("the table as data", "code-tables export --csv table.csv --json table.json", with_outputs, export),
}


def parser_of_commands() -> argparse.ArgumentParser:
    """The command line."""
    parser = argparse.ArgumentParser(prog="code-tables", description="Bounds of A(n,d) and A(n,d,w) by a proved program, over a library "
                                     "of evidence. Each number is one that the program wrote.", epilog="code-tables COMMAND -h describes a command.")
    parser.add_argument("--version", action=Version, nargs=0, help="the version, and which program and library are asked")
    with_empty(parser)
    commands = parser.add_subparsers(dest="command", metavar="COMMAND", required=True)
    for name, (does, example, arguments, function) in COMMANDS.items():
        one = commands.add_parser(name, help=does, description=f"{does[0].upper()}{does[1:]}.", epilog=f"Example: {example}")
        arguments(one)
        if name not in ("verify", "find"):
            with_empty(one)
            one.add_argument("--with", dest="more", action="append", metavar="SESSION", default=argparse.SUPPRESS, help="run this session, too, behind the library")
        one.set_defaults(function=function)
    return parser


def read_options(words: Sequence[str]) -> Options:
    """The options of a command line; the page takes those of its tool."""
    parser = parser_of_commands()
    options, rest = parser.parse_known_args(words, Options(empty=False, more=[]))
    if rest and options.command != "page":
        parser.error(f"{' '.join(rest)}: no argument of {options.command}; code-tables {options.command} -h describes it")
    options.rest = rest
    return options


def answered(words: Sequence[str]) -> int:
    """Runs a command line: the status is 0, 1 at a refusal or at a `no`, 2 where the words are wrong."""
    from .sessions import Refusal
    try:
        options = read_options(words)
        return options.function(options)
    except Refusal as refusal:
        print(f"code-tables: refused: {refusal}", file=sys.stderr)
    except BrokenPipeError:
        raise
    except OSError as fault:
        print(f"code-tables: refused: {fault.filename or 'a file'}: {fault.strerror}", file=sys.stderr)
    return 1


def main(words: Sequence[str] | None = None) -> None:
    """Runs a command line, and ends with its status."""
    words = sys.argv[1:] if words is None else words
    sys.argv[0] = "code-tables"
    ended(lambda: sys.exit(answered(words)))


if __name__ == "__main__":
    main()

#!/usr/bin/env python3
"""Puts each reply of the program beside its command, and says what a refusal means there.

    $ printf 'submit a\\nkind = "words"\\nn = 6\\nd = 4\\nwords = ["000000", "111000"]\\nend\\nshow 6 4\\n' > two.session
    $ printf 'refused close 0 1 3\\nA(6,4) = 4\\n' | tools/annotate.py two.session
    1: submit a: refused close 0 1 3
        I < J is the least pair of places, in the same order, whose words have a distance T below d. Of cosets, I and J are numbers of choices
        (below), and T is 0 where two choices give one word
        word 0  000000
        word 1  111000, at distance 3 and not 4
        the least distance of all 2 words is 3
    7: show 6 4: A(6,4) = 4

SESSION is the session, and standard input what the program answered to it. The sentence of a refusal is that of docs/FORMATS.md; below it
stand the words of a pair that is too close, the least distance of the whole list, the range of a field, the piece that stands in the way.
Below a dual that the mode `find` wrote stands whether it is the least of its form: the primal above it is checked (tools/check_primal.py).
With --refused only refusals are shown. Ends with 1 where there is one, as the program does, and where replies are missing or can't be those
to this session: an id, an entry, a size or a count in them tells, and is named on standard error."""

import argparse
import sys
import textwrap

import check_primal
from code_tables import sessions
from code_tables.cites import LONGEST_CITE, MOST_CITES
from code_tables.ending import ended
from code_tables.fitting import Standing
from code_tables.refusals import meanings, sentences
from code_tables.sessions import LAST, Refusal, texts_of, words_of
from code_tables.words import MOST_WORK, distance, span

# The ranges of the fields, as docs/FORMATS.md says them.
RANGES = {
    "format": "the whole number 1 or 2, and 1 where it is left out",
    "cites": f"a list of at most {MOST_CITES} texts, each of 1 to {LONGEST_CITE} bytes, in printable ASCII alone",
    "n": f"a whole number from 1 to {LAST}; for some builds at least 2, or even",
    "d": f"a whole number from 3 to {LAST}, even where `w` stands",
    "w": "a whole number from 0 to n; whether it may stand, or has to, the kind and the operation say",
    "words": "a list of texts", "basis": "a list of texts", "representatives": "a list of texts", "classes": "a list of lists of texts",
    "d1": "a whole number from 1 to d", "op": "the text of one of the operations",
    "places": f"a list of at least one place, ascending, each below the part's length, which is at most {LAST}",
    "digits": "a text, with a digit for each place", "by": "a text of n digits", "size": "a whole number from 1 to 262144",
    "part": "the text of an id", "other": "the text of an id", "pairs": f"1 to {LAST + 1} lists of two ids; exactly one where `w` is left out",
    "even": "true or false; true only where d is even", "m": "an odd whole number from 3 to 1048575",
    "c": "a list of whole numbers of at least 0, as many as the degree and one more at most",
    "y": "a list of pairs of a distance, ascending from d to n, even where `even` is set, and a whole number of at least 0",
}


def stated_words(fields):
    """The words of a document in the order in which they are numbered, with a basis and representatives where it has these."""
    n = fields["n"]
    if fields["kind"] == "cosets":
        basis, chosen = ([int(word, 2) for word in fields[name]] for name in ("basis", "representatives"))
        return (lambda t: chosen[t >> len(basis)] ^ span(basis)[t & (1 << len(basis)) - 1]), basis, chosen, n
    words = [int(word, 2) for word in texts_of(fields)]
    return words.__getitem__, [], words, n


def closeness(command, numbers):
    """What a pair that is too close looks like, and how close the whole list is."""
    word, basis, chosen, n = stated_words(command.fields)
    first, second = numbers[:2]
    apart = (word(first) ^ word(second)).bit_count()
    wanted = numbers[5] if len(numbers) > 5 else command.fields["d"]
    yield f"word {first}  {word(first):0{n}b}"
    yield f"word {second}  {word(second):0{n}b}, at distance {apart}" + (f" and not {wanted}" if apart else ": the same word")
    size = len(chosen) << len(basis)
    if size <= MOST_WORK and len(set(chosen)) == len(chosen) and not (basis and 0 in span(basis)[1:]):
        yield f"the least distance of all {size} words is {distance(chosen, basis)}"


def particulars(command, words):
    """What the words of a refusal are in this session."""
    fault, rest = words[1], words[2:]
    numbers = [int(word) for word in rest if word.isdigit()]
    if fault in ("close", "repeated"):
        yield from closeness(command, numbers)
    elif fault in ("weight", "digits"):
        word = texts_of(command.fields)[numbers[0]]
        yield f"word {rest[0]}  {word}" + (f", of weight {word.count('1')} and not {command.fields['w']}" if fault == "weight" else "")
    elif fault == "field" and rest[0] in RANGES:
        stated = command.fields.get(rest[0])
        yield f"{rest[0]} is {RANGES[rest[0]]}; " + ("it is missing" if stated is None else f"the document has {str(stated)[:60]}")
    elif fault == "unknown" and "cites" in command.fields and command.fields.get("format", 1) == 1:
        yield "the document has the key cites, and no `format = 2`"
    elif fault == "kind":
        yield f"the document has the kind {command.fields.get('kind')!r}"
    elif fault == "short":
        yield f"the operation gives distance {rest[0]}, and the document states {rest[1]}"
    elif fault == "toml":
        yield from unread(command.document)


def unread(document):
    """Why a document is no TOML, as far as it can be told."""
    if document.endswith("\r"):
        yield "the last line of the document ends with a carriage return, which TOML doesn't take there: the session has the line ends of Windows."
        yield "Write it with line feeds alone, as by tr -d '\\r' < SESSION"
        return
    fault = sessions.toml_fault(document)
    if fault:
        yield f"Python's reader of TOML says: {fault}"


def shown(reply):
    """A reply behind its command: on the same line where it is one."""
    if not reply:
        return " no reply: the program ended before it"
    return f" {reply[0]}" if len(reply) == 1 else "\n    ".join(["", *reply])


def proposed(command):
    """What the lines of `find` above a submission say of its dual, checked."""
    bounds, primals = ([told for remark in command.remarks if (told := read(remark))] for read in (check_primal.bound_of, check_primal.primal_of))
    if command.words[0] != "submit" or len(bounds) != 1 or len(primals) > 1:
        return
    (bound, stop), primal = bounds[0], next(iter(primals), None)
    try:
        is_least = check_primal.checked(check_primal.Found(sessions.entry_of(command.fields), bound, stop, primal, command.document or ""))
    except Refusal as fault:
        yield f"    what find is said to have written above it is not so: {fault}"
        return
    yield f"    the dual's bound is {bound}; " + ("the primal above it is sound, so no dual of the form has a smaller bound" if is_least
                                                 else f"that it is the least of its form is not shown: the run of find ended as {stop}")


def annotated(session, output, known, refused_only):
    """The lines that are written, each with whether a reply was a refusal so far."""
    some, at, standing, missing = False, 0, Standing(), 0
    for command, reply in sessions.replies(sessions.commands(session), output):
        missing += not reply
        fault = standing.fault(command, reply) if reply else None
        if fault:
            raise Refusal(f"line {at + 1} of the replies, {reply[0]}, can't answer line {command.line} of the session, {' '.join(command.words)}: {fault}")
        at += len(reply)
        refused = bool(reply) and reply[0].startswith("refused ") and command.words != ["ledger"]
        some = some or refused
        if not refused_only or refused or not reply:
            yield f"{command.line}: {' '.join(command.words)}:{shown(reply)}", some
        for line in explained(command, reply[0], known) if refused else []:
            yield line, some
        for line in proposed(command) if reply and not refused and not refused_only else []:
            yield line, some
    if missing:
        raise Refusal(f"{missing} replies are missing: the program ended before the session did, or these are replies to another one")


def explained(command, refusal, known):
    """What a refusal means here, line by line."""
    for sentence in meanings(command, refusal, known):
        yield textwrap.fill(sentence, 144, initial_indent="    ", subsequent_indent="    ")
    try:
        yield from [f"    {line}" for line in particulars(command, words_of(refusal))]
    except (AttributeError, KeyError, IndexError, TypeError, ValueError):
        yield "    (the document isn't one to which these numbers belong)"


def main():
    parser = argparse.ArgumentParser(description=__doc__, formatter_class=argparse.RawDescriptionHelpFormatter)
    parser.add_argument("session", help="the session that was run")
    parser.add_argument("--refused", action="store_true", help="show refusals alone")
    parser.add_argument("--refusals", metavar="FILE", help="the sentences (tools/refusals.json)")
    options = parser.parse_args()
    some = False
    try:
        for line, some in annotated(sessions.read_text(options.session), sys.stdin.read(), sentences(options.refusals), options.refused):
            print(line)
    except Refusal as refusal:
        sys.stdout.flush()
        sys.exit(f"annotate: refused: {refusal}")
    sys.exit(some)


if __name__ == "__main__":
    ended(main)

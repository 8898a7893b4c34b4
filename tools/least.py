"""What the page says of the dual of an upper bound: whether it is the least of its form, where the mode `find` showed it.

    ./code_tables find < entries > found
    tools/page.py --found found examples/library/*.session > table.html

What `find` wrote is checked again as tools/check_primal.py does; a reply that is not so is refused."""

import tomllib

import check_primal
from code_tables import sessions
from code_tables.sessions import Refusal, name_of

# The rules of duals.
RULES = ("U11", "U12", "V9", "V10")


def read(path):
    """The replies of `find` in a file, by entry."""
    found = {}
    for reply in check_primal.replies(sessions.read_text(path)):
        try:
            check_primal.checked(reply)
        except Refusal as refusal:
            raise Refusal(f"{path}: {name_of(reply.entry)}: {refusal}") from None
        found[reply.entry] = reply
    return found


def sentence(piece, high, reply):
    """What a reply says of the dual of a piece, from which an entry has its upper bound."""
    fields = tomllib.loads(piece.document)
    has_y = any(allowed for _, allowed in fields.get("y", []))
    if piece.kind == "odd":
        beside = f" Of the duals that exclude no number of words and have no y {reply.bound} is the least bound, shown by a primal."
        return f"The dual {piece.id} excludes {fields['m']} words, since that is odd." + beside * (reply.primal is not None)
    if reply.primal is None:
        return f"Whether the dual {piece.id} is the least is not shown: the run of find ended as {reply.stop}."
    if has_y:
        return f"The dual {piece.id} rests on bounds of words at one distance (y). Of the duals without such bounds {reply.bound} is the least bound, shown by a primal."
    if reply.bound < high:
        return f"The dual {piece.id} is not the least of its form: one has the bound {reply.bound}."
    return f"The dual {piece.id} is the least of its form: no dual of the entry without y has a smaller bound, shown by a primal."


def said(held, entry, found):
    """What is said of the dual of an entry's upper bound; nothing where it has none by itself, or `find` wasn't asked."""
    derivation = held.derivations.get(("upper", entry))
    if not derivation or derivation.rule not in RULES or entry not in found:
        return ""
    words = derivation.lines[-1].split(" ")
    return sentence(held.pieces[words[words.index("by") + 2]], held.bounds[entry][1], found[entry])

"""Submissions of Sage's codes, and duals of Delsarte's linear program, for Sage. Started in the repository's folder:

    sage: load("tools/code_tables.sage.py")
    sage: SubmitCode("hamming", codes.HammingCode(GF(2), 3))
    # [7, 4] Hamming Code over GF(2)
    submit hamming
    kind = "cosets"
    n = 7
    d = 3
    basis = ["1000011", "0100101", "0010110", "0001111"]
    representatives = ["0000000"]
    end
    sage: SubmitDelsarte("delsarte", 16, 6)
    # A(16,6) <= 256
    submit delsarte
    kind = "dual"
    n = 16
    d = 6
    even = true
    c = [560, 350, 168, 79, 28, 5]
    end

SubmitCode takes any binary linear code; its distance is that of the words of a basis, and not one that is claimed. SubmitDelsarte(id, n, d[, w])
solves the dual program exactly, by the solver PPL. Both print, or append to a file with file="FILE". A code of one word has no distance:
state one with distance=D. With cites=["TEXT", ..] the document cites these texts. What is refused is a ValueError that says why, and nothing is written. The program checks all of it anew."""

import sys
from pathlib import Path

from sage.numerical.mip import MixedIntegerLinearProgram
from sage.rings.rational_field import QQ

sys.path[:0] = [str(place) for place in (Path(globals().get("__file__", "")).parent, Path("tools")) if (place / "submit_dual.py").exists()]

import submit_dual
from code_tables.sessions import Refusal
from code_tables.words import read_words, submission


def put(text, file):
    """Prints a text, or appends it to a file."""
    if file is None:
        print(text, end="")
    else:
        with open(file, "a", encoding="utf-8") as out:
            out.write(text)


def SubmitCode(id, code, distance=None, file=None, cites=()):
    """Prints the submission of a binary linear code, or appends it to a file."""
    try:
        if code.base_ring().order() != 2:
            raise Refusal("no binary code")
        rows = ["".join(str(int(x)) for x in row) for row in code.basis()] or ["0" * int(code.length())]
        words, n = read_words(rows)
        text = submission(id, words, n, generator=True, d=None if distance is None else int(distance), comment=str(code), cites=cites)
    except Refusal as refusal:
        raise ValueError(f"code_tables: refused: {refusal}") from None
    put(text, file)


def SubmitDelsarte(id, n, d, w=None, file=None, cites=()):
    """Prints the submission of a dual that is least, or appends it to a file."""
    try:
        program = submit_dual.Program(int(n), int(d), None if w is None else int(w))
        lp = MixedIntegerLinearProgram(maximization=False, solver="PPL")
        c = lp.new_variable(nonnegative=True)
        number = lambda k, i: QQ(submit_dual.scheme_number(program.n, program.w, k, i))
        # Where all distances are even, the numbers of k and n - k are the same.
        indices = range(program.degree // 2 + 1 if program.even else program.degree + 1)
        lp.set_objective(sum(number(k, 0) * c[k] for k in indices))
        lp.add_constraint(c[0] == 1)
        for i in program.range:
            lp.add_constraint(sum(number(k, i) * c[k] for k in indices) <= 0)
        lp.solve()
        values = lp.get_values(c)
        lines = [f"c {k} {values.get(k, 0)}" for k in indices]
        multipliers, y = submit_dual.read_multipliers(lines, program)
        submit_dual.check(program, multipliers, y, 0)
        text = submit_dual.submission(id, program, *submit_dual.whole_dual(program, multipliers, y), cites)
    except Refusal as refusal:
        raise ValueError(f"code_tables: refused: {refusal}") from None
    put(text, file)

"""The words of the codes of pieces, by what their documents say. The program checked them: here no distance is."""

import check_derivation
from code_tables.sessions import SIZELESS


class Code(check_derivation.Piece):
    """A piece whose words are taken as they stand."""

    def check_words(self):
        self.code, self.size = sorted(self.numbers[0]), len(self.numbers[0])

    def check_partition(self):
        pass

    def check_cosets(self):
        basis, self.chosen = self.numbers
        self.sums, self.size = [0], len(self.chosen) << len(basis)
        for word in basis:
            self.sums += [word ^ other for other in self.sums]


def codes(pieces, most):
    """The id, the length and the words, ascending, of each code of at most so many words."""
    read = {}
    for piece in pieces:
        if piece.kind in SIZELESS:
            continue
        read[piece.id] = code = Code(piece.document.encode("utf-8", "surrogateescape"))
        code.check(read)
        if piece.kind != "partition" and piece.size <= most:
            yield piece.id, code.n, code.words()

"""Words of a code as numbers, first digit highest, and the submissions of codes.

    >>> words, n = read_words(["1100", "[0, 0, 1, 1]"])
    >>> print(submission("pair", words, n), end="")
    # 2 words of length 4 at distance 4, over a kernel of dimension 1
    submit pair
    kind = "words"
    n = 4
    d = 4
    w = 2
    words = ["1100", "0011"]
    end

Nothing here is trusted: the program checks what is handed in."""

import re
from collections.abc import Iterable, Sequence
from random import Random

from .cites import check_cites, citing
from .sessions import LAST, Refusal, quoted

# The limits of docs/FORMATS.md.
MOST_WORDS, MOST_REPRESENTATIVES, MOST_WORK = 16384, 4096, 2 ** 24
ID = re.compile("[a-z][a-z0-9_-]{0,31}")


def check_id(name: str) -> None:
    """Refuses what is no id of a piece."""
    if not ID.fullmatch(name):
        raise Refusal(f"{name} is no id: 1 to 32 lower-case letters, digits, - and _, a letter first")


# GAP's elements of the field of two elements.
ZERO_OF_GAP, ONE_OF_GAP = re.compile(r"0 ?\* ?Z\(2\)"), re.compile(r"Z\(2\)(?: ?\^ ?0)?")


def texts_between(lines: Iterable[str]) -> Iterable[tuple[int, str, str]]:
    """What stands between brackets, or alone on a line outside of all brackets, each with the number and the text of its last line."""
    depth, text = 0, ""
    for number, line in enumerate(lines, 1):
        line = line.removeprefix("\ufeff") if number == 1 else line
        if line.lstrip().startswith("#"):
            continue
        for part in re.split(r"([\[\](){}])", ONE_OF_GAP.sub("1", ZERO_OF_GAP.sub("0", line))):
            if part and part in "[](){}":
                yield number, line, text
                depth, text = depth + (1 if part in "[({" else -1), ""
                if depth < 0:
                    raise Refusal(f"line {number} has a bracket that closes nothing: {quoted(line)}")
            else:
                text += part
        if depth == 0:
            yield number, line, text
            text = ""
    if depth:
        raise Refusal("a bracket isn't closed")


def texts_of_words(text: str) -> list[str]:
    """The digits of the words in a text: of each text in quotes, else of each of several that commas separate, else of all digits together.
    A dot that stands alone is a 0, as GAP displays matrices."""
    if re.search("[\"']", text):
        inside = re.findall("\"([^\"]*)\"|'([^']*)'", text)
        rest = re.sub("\"[^\"]*\"|'[^']*'|[\\s,;]", "", text)
        return ["".join(re.split(r"[\s,;]+", one or other)) for one, other in inside] + ([rest] if rest else [])
    parts = [part for part in re.split(r"[\s,;]+", text) if part]
    if "," in text and len(parts) > 1 and all(len(part) > 1 for part in parts):
        return parts
    return ["".join("0" if part == "." else part for part in parts)] if parts else []


def read_words(lines: Iterable[str]) -> tuple[list[int], int]:
    """The words of lines, as numbers, and their length: a word a line, in digits 0 and 1, or the lists of Python and GAP, of words or of lists of
    digits, as they are printed. Spaces and commas between digits don't count, nor do lines that are empty or begin with #, nor a byte order mark.

        >>> read_words(["[[0, 1, 1],", " [1, 0, 0]]"])
        ([3, 4], 3)
        >>> read_words(["['0011', '1100']"])
        ([3, 12], 4)
    """
    words: dict[int, int] = {}
    length = None
    for number, line, text in texts_between(lines):
        for digits in texts_of_words(text):
            if not re.fullmatch("[01]+", digits):
                raise Refusal(f"line {number} is no word of digits 0 and 1: {quoted(line)}")
            length = length or len(digits)
            if len(digits) != length:
                raise Refusal(f"line {number} has {len(digits)} digits, and the first word has {length}: {quoted(line)}")
            if int(digits, 2) in words:
                raise Refusal(f"line {number} has the word of line {words[int(digits, 2)]} again: {quoted(line)}")
            words[int(digits, 2)] = number
    if length is None:
        raise Refusal("there is no word")
    if length > LAST:
        raise Refusal(f"the words have length {length}, and the table ends at {LAST}")
    return list(words), length


def independent(words: Iterable[int]) -> list[int]:
    """The words that are no sum of those before them."""
    chosen, echelon = [], []
    for word in words:
        rest = word
        for row in echelon:
            rest = min(rest, rest ^ row)
        if rest:
            chosen.append(word)
            echelon = sorted(echelon + [rest], reverse=True)
    return chosen


def span(basis: Iterable[int]) -> list[int]:
    """All sums of words."""
    sums = [0]
    for word in basis:
        sums += [word ^ other for other in sums]
    return sums


def functional(words: Sequence[int], k: int, chance: Random) -> int:
    """Digits u with u.k odd for which the words w with u.w even and odd are not the same in number; 0 where the code, with k added, is the
    code again: then there are none. Some are tried by chance; then a sum over the words, with signs, is folded digit by digit so that it doesn't
    vanish."""
    for u in map(chance.getrandbits, [LAST] * 8):
        u ^= 0 if (u & k).bit_count() % 2 else k & -k
        if 2 * sum((u & word).bit_count() & 1 for word in words) != len(words):
            return u
    place = k.bit_length() - 1
    signed: dict[int, int] = {}
    for word in words:
        odd = word >> place & 1
        at = word ^ k if odd else word
        signed[at] = signed.get(at, 0) + (-1 if odd else 1)
    signed = {at: value for at, value in signed.items() if value}
    if not signed:
        return 0
    u = 0
    for digit in range(max(max(signed).bit_length(), place)):
        bit = 1 << digit
        sums: dict[int, int] = {}
        differences: dict[int, int] = {}
        for at, value in signed.items():
            sums[at & ~bit] = sums.get(at & ~bit, 0) + value
            differences[at & ~bit] = differences.get(at & ~bit, 0) + (-value if at & bit else value)
        signed = {at: value for at, value in sums.items() if value}
        if not signed:
            u |= bit
            signed = {at: value for at, value in differences.items() if value}
    return u if (u & k).bit_count() % 2 else u ^ 1 << place


def kernel(words: Sequence[int]) -> list[int]:
    """A basis of the words that give the code again when they are added to all of it. The sums of differences of words are cut down by a
    linear condition for each that isn't one, so the time grows as the number of words does."""
    code = set(words)
    left, found, chance = independent(word ^ words[0] for word in words), [], Random(1)
    while left:
        k = left.pop()
        if all(k ^ word in code for word in words):
            found.append(k)
            continue
        u = functional(words, k, chance)
        left = [word ^ k if (word & u).bit_count() % 2 else word for word in left]
    return found


def representatives(words: Iterable[int], basis: Iterable[int]) -> list[int]:
    """The first word of each coset of a kernel."""
    words = list(words)
    left, found, sums = dict.fromkeys(words), [], span(basis)
    for word in words:
        if word in left:
            found.append(word)
            for other in sums:
                left.pop(word ^ other, None)
    return found


class Planes:
    """Words digit by digit: the number of a digit has a bit for each word, so that an operation on it is one on all words."""

    def __init__(self, words: Sequence[int], basis: Iterable[int] = ()) -> None:
        """The sums of each of the words with all sums of the basis, those of one word together."""
        n = max([word.bit_length() for word in [*words, *basis]], default=0)
        self.count = 1
        sums = [0] * n
        for word in basis:
            every = (1 << self.count) - 1
            sums = [plane | (plane ^ (every if word >> digit & 1 else 0)) << self.count for digit, plane in enumerate(sums)]
            self.count *= 2
        self.each, every = self.count, (1 << self.count) - 1
        self.planes = []
        for digit, plane in enumerate(sums):
            texts = (f"{plane ^ every if word >> digit & 1 else plane:0{self.each}b}" for word in reversed(words))
            self.planes.append(int("".join(texts), 2) if words else 0)
        self.count *= len(words)

    def weights(self, word: int, behind: int = 0) -> tuple[list[int], int]:
        """The weights of the sums of a word and of the words from a place on: as binary digits, lowest first, and all ones."""
        every = (1 << self.count - behind) - 1
        levels = [[(plane >> behind) ^ (every if word >> digit & 1 else 0) for digit, plane in enumerate(self.planes)]]
        digits = []
        while levels:
            level, carries = levels.pop(), []
            while len(level) > 1:
                a, b = level.pop(), level.pop()
                if level:
                    c = level.pop()
                    both = a ^ b
                    level.insert(0, both ^ c)
                    carries.append(a & b | both & c)
                else:
                    level.append(a ^ b)
                    carries.append(a & b)
            digits.append(level[0] if level else 0)
            if carries:
                levels.append(carries)
        return digits, every


def least(digits: list[int], among: int) -> int:
    """The least number among the places that are set."""
    value = 0
    for power in reversed(range(len(digits))):
        zeros = among & ~digits[power]
        if zeros:
            among = zeros
        else:
            value += 1 << power
    return value


def distance(chosen: Sequence[int], basis: Sequence[int] = ()) -> int | None:
    """The least distance of the sums of a chosen word and of words of the basis: None for one word."""
    planes, found = Planes(chosen, basis), []
    for place, word in enumerate(chosen):
        digits, every = planes.weights(word, place * planes.each)
        others = every & ~1
        if others:
            found.append(least(digits, others))
    return min(found, default=None)


def listed(name: str, words: Sequence[int], n: int) -> str:
    """A key with a list of words."""
    text = ", ".join(f'"{word:0{n}b}"' for word in words)
    if len(text) < 100:
        return f"{name} = [{text}]"
    each = max(1, 100 // (n + 4))
    rows = [words[i:i + each] for i in range(0, len(words), each)]
    return f"{name} = [\n" + ",\n".join("  " + ", ".join(f'"{word:0{n}b}"' for word in row) for row in rows) + "]"


def document(words: Sequence[int], basis: Sequence[int], n: int, d: int, may_have_weight: bool = True) -> str:
    """The shorter of the documents of a code that a submission may have: a list of words, or cosets of the span of a basis."""
    chosen = representatives(words, basis)
    weights = {word.bit_count() for word in words}
    forms = []
    if len(words) <= MOST_WORDS:
        weight = f"w = {weights.pop()}\n" if len(weights) == 1 and d % 2 == 0 and may_have_weight else ""
        forms.append(f'kind = "words"\nn = {n}\nd = {d}\n{weight}{listed("words", words, n)}')
        if weight:
            return forms[0]
    if len(chosen) <= MOST_REPRESENTATIVES and len(chosen) * (len(chosen) + 1) // 2 << len(basis) <= MOST_WORK:
        forms.append(f'kind = "cosets"\nn = {n}\nd = {d}\n{listed("basis", basis, n)}\n{listed("representatives", chosen, n)}')
    if not forms:
        raise Refusal(f"{len(words)} words, {len(chosen)} cosets of a kernel of dimension {len(basis)}: more than a document holds")
    return min(forms, key=len)


def remarks(text: str) -> str:
    """A text as lines that begin with #, and are no commands."""
    return "".join(f"# {line}\n" for line in re.split(r"[\r\n]+", text.strip("\r\n")))


def submission(name: str, words: Sequence[int], n: int, *, generator: bool = False, d: int | None = None, may_have_weight: bool = True,
               comment: str | None = None, cites: Sequence[str] = ()) -> str:
    """The submission of the code of these words, or with `generator` of their span, with a remark above it that says what was found, and the
    texts that it cites. A distance that is stated is left to the program; where none is, it is the least."""
    check_id(name)
    check_cites(cites)
    if generator:
        basis = independent(words)
        if len(basis) > 24:
            raise Refusal(f"the matrix has rank {len(basis)}: more than 2^24 words aren't compared")
        size, chosen = 2 ** len(basis), [0]
    else:
        basis = kernel(words)
        size, chosen = len(words), representatives(words, basis)
    if d is None:
        d = distance(chosen, basis)
    if d is None:
        raise Refusal("one word has no distance: state one, by --distance or in Python as d")
    if not 3 <= d <= LAST:
        raise Refusal(f"the distance is {d}, and the table has the distances 3 to {LAST}")
    if generator:
        text = f'kind = "cosets"\nn = {n}\nd = {d}\n{listed("basis", basis, n)}\nrepresentatives = ["{"0" * n}"]'
    else:
        text = document(words, basis, n, d, may_have_weight)
    said = f"{size} word{'s' * (size > 1)} of length {n} at distance {d}, over a kernel of dimension {len(basis)}"
    return f"{remarks(comment or said)}submit {name}\n{citing(text, cites)}\nend\n"

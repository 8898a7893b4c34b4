#!/usr/bin/env python3
"""Prints a session for the programs that measure: `sessions.py NAME [SIZE]`; without a name, the names. What each is about stands at its function."""

import sys

# Numbers of at least two ones. A word with a one at a place of its own and the digits of such a number at the end is at distance 3 or more
# from each sum of others.
TWO_ONES = [x for x in range(64) if x.bit_count() >= 2]
# The greatest odd number of words that a dual has.
MOST_ODD = 2 ** 20 - 1


def text(word, n):
    """The text of a word."""
    return f"{word:0{n}b}"


def cosets(n, d, basis):
    """A document of a linear code."""
    return f"kind = 'cosets'\nn = {n}\nd = {d}\nbasis = {[text(x, n) for x in basis]}\nrepresentatives = ['{'0' * n}']\n"


def build(op, n, d, part, more=""):
    """A document of a build."""
    return f"kind = 'build'\nop = '{op}'\nn = {n}\nd = {d}\npart = '{part}'\n{more}"


def submit(name, document):
    """The command that hands in a document."""
    return f"submit {name}\n{document}end\n"


def linear(n, k):
    """A basis of k words of length n, of a code of distance 3."""
    return [1 << (n - 1 - place) | tail for place, tail in enumerate(TWO_ONES[:k])]


def by(word, n):
    """The key of a word that is added."""
    return f"by = '{text(word % 2 ** n, n)}'\n"


def part(k):
    """A linear code of 2^k words, of length 26, as the piece `part`."""
    return submit("part", cosets(26, 3, linear(26, k)))


def over_part(op, n, d, more=""):
    """A build over 262,144 words."""
    return lambda _: part(18) + submit("built", build(op, n, d, "part", more))


def lone_part(_):
    """That part alone."""
    return part(18)


def puncture(_):
    """The same, with a parity digit, so that a place can go."""
    basis = [x << 1 | x.bit_count() % 2 for x in linear(26, 18)]
    return submit("part", cosets(27, 4, basis)) + submit("built", build("puncture", 26, 3, "part", "places = [3]\n"))


def two_parts(op, n, d, k):
    """A build over two codes of 2^k words."""
    code = cosets(14, 3, linear(14, k))
    return lambda _: submit("u", code) + submit("v", code) + submit("built", build(op, n, d, "u", "other = 'v'\n"))


def translations(size):
    """A chain of builds of 16,384 words."""
    steps = (submit(f"c{i + 1}", build("translate", 24, 3, f"c{i}", by(i * 32452843 + 1, 24))) for i in range(size or 40))
    return submit("c0", cosets(24, 3, linear(24, 14))) + "".join(steps)


def lone_words(size):
    """A chain of builds of one word."""
    steps = (submit(f"c{i + 1}", build("translate", 24, 3, f"c{i}", by(i * 32452843 + 1, 24))) for i in range(size or 400))
    return submit("c0", cosets(24, 3, [])) + "".join(steps)


def tree(size):
    """A tree of builds of 512 words: each over the one of half its number."""
    steps = (submit(f"t{i}", build("translate", 24, 3, f"t{i // 2}", by(i * 32452843, 24))) for i in range(2, size or 1000))
    return submit("t1", cosets(24, 3, linear(24, 9))) + "".join(steps)


def fan(size):
    """Trims over one linear code of 262,144 words."""
    return part(18) + "".join(submit(f"f{i}", build("trim", 26, 3, "part", f"size = {i + 1}\n")) for i in range(size or 40))


def explained_builds(size):
    """An explanation that needs one piece, over so many builds that it doesn't need."""
    return lone_words(size or 400) + "explain lower 26 3\n" * 100


def refused_size(size):
    """Builds over a piece of 524,288 words, which are refused for the size of their part."""
    large = submit("large", cosets(28, 3, linear(28, 19)))
    return large + "".join(submit("built", build("complement", 28, 3, "large")) for _ in range(size or 100))


def refused_distance(size):
    """Builds over a piece of 262,144 words, which are refused for their distance."""
    return part(18) + "".join(submit("built", build("complement", 26, 4, "part")) for _ in range(size or 100))


def refused_few(size):
    """Builds over a piece of 131,072 words, which are refused for the words that they want."""
    return part(17) + "".join(submit("built", build("trim", 26, 3, "part", "size = 131073\n")) for _ in range(size or 100))


def pieces(size):
    """Pieces of one word, each with a line of the table."""
    one = "kind = 'words'\nn = 10\nd = 4\nwords = ['{}']\n"
    return "".join(submit(f"p{i}", one.format(text(i % 1024, 10))) + "show 10 4\n" for i in range(size or 1000))


def withdrawals(size):
    """As many pieces, which go in the order in which they came."""
    one = "kind = 'words'\nn = 10\nd = 4\nwords = ['{}']\n"
    came = (submit(f"p{i}", one.format(text(i % 1024, 10))) for i in range(size or 1000))
    return "".join(came) + "".join(f"withdraw p{i}\n" for i in range(size or 1000))


def words_of_a_build(size):
    """Four builds over a linear code of so many words, a power of two."""
    steps = (submit(f"b{i}", build("translate", 26, 3, "part", by(i * 32452843 + 1, 26))) for i in range(3))
    return part((size or 2 ** 18).bit_length() - 1) + "".join(steps)


def dumped_words(size):
    """A dump of documents of so many words in all, 4,096 each."""
    words = [0]
    for word in linear(20, 12):
        words += [word ^ other for other in words]
    document = f"kind = 'words'\nn = 20\nd = 3\nwords = {[text(x, 20) for x in words]}\n"
    return "".join(submit(f"w{i}", document) for i in range((size or 65536) // 4096)) + "dump\n"


def dual(n, d, even, odd=None):
    """A document of a dual, f = 1, that rests on an upper bound at each distance; with an odd number of words where one is given."""
    kind, more = ("dual", "") if odd is None else ("odd", f"m = {odd}\n")
    y = [[i, 1] for i in range(d, n + 1, 1 + (even == "true"))]
    return f"kind = '{kind}'\nn = {n}\nd = {d}\neven = {even}\n{more}c = [1]\ny = {y}\n"


def over_duals(last, odd=None):
    """Five hundred duals, with an odd number of words where one is given, and then a piece that comes and goes so many times."""
    kinds = [(n, d, even) for n in range(30, 3, -1) for d in range(3, n + 1) for even in ("false", "true")[:2 - d % 2]]
    standing = "".join(submit(f"d{i}", dual(*kind, odd)) for i, kind in enumerate(kinds[:500]))
    return lambda size: standing + (submit("last", last) + "withdraw last\n") * (100 if size is None else size)


def sum_class_lines(size):
    """A derivation document, for `verify`: lines that each count the words of weight 15 and length 30 whose places have the sum 0 modulo 30."""
    classes = [[int(not (weight or rest)) for rest in range(30)] for weight in range(16)]
    for place in range(30):
        for weight in range(15, 0, -1):
            for rest in range(30):
                classes[weight][(rest + place) % 30] += classes[weight - 1][rest]
    line = f"line {{}} lower 30 4 15 value {classes[15][0]} by M9 0\n"
    return "derivation\n" + "".join(line.format(i + 1) for i in range(size or 1000)) + "done\n"


def feeds(size):
    """Empty lines."""
    return "\n" * (size or 2 ** 24)


def shows(size):
    """Lines of the table."""
    return "show 10 6\n" * (size or 400000)


SESSIONS = {
    "empty": lambda _: "",
    "lone_part": lone_part,
    "lengthen": over_part("lengthen", 27, 3),
    "append_one": over_part("append_one", 27, 3),
    "parity": over_part("parity", 27, 4),
    "puncture": puncture,
    "shorten": over_part("shorten", 25, 3, "places = [0]\ndigits = '0'\n"),
    "translate": over_part("translate", 26, 3, by(0b10110011100011110000111110, 26)),
    "complement": over_part("complement", 26, 3),
    "select": over_part("select", 26, 4, f"w = 13\n{by(0, 26)}"),
    "uuv": two_parts("uuv", 28, 3, 9),
    "juxtapose": two_parts("juxtapose", 28, 6, 10),
    "trim": over_part("trim", 26, 3, "size = 262144\n"),
    "translations": translations,
    "lone_words": lone_words,
    "tree": tree,
    "fan": fan,
    "explained_builds": explained_builds,
    "sum_class_lines": sum_class_lines,
    "refused_size": refused_size,
    "refused_distance": refused_distance,
    "refused_few": refused_few,
    "pieces": pieces,
    "withdrawals": withdrawals,
    "words_of_a_build": words_of_a_build,
    "dumped_words": dumped_words,
    "duals": over_duals(dual(30, 3, "false")),
    "odd_duals": over_duals(dual(30, 3, "false", MOST_ODD), MOST_ODD),
    "duals_and_a_code": over_duals(cosets(27, 3, linear(27, 12))),
    "feeds": feeds,
    "shows": shows,
}


def main():
    if len(sys.argv) < 2:
        print(*SESSIONS)
        return
    size = int(sys.argv[2]) if len(sys.argv) > 2 else None
    sys.stdout.write(SESSIONS[sys.argv[1]](size))


main()

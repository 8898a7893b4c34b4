"""What a turn of a session makes is given back at its end: however many turns there are, they do with the memory of a few."""

import resource
import subprocess
import tempfile
import unittest

from support import needs_program

from code_tables.program import program

# How a run ends: all was answered; something was refused.
DONE, REFUSED = 0, 1
STEP = 256 * 1024
# No run of a few turns takes so much; and what many turns may take beyond a few.
MOST, SLACK = 128 * STEP, 2 * STEP


def span(basis):
    words = [0]
    for word in basis:
        words += [x ^ word for x in words]
    return sorted(words)


def texts(words, n):
    return "[" + ", ".join(f"'{x:0{n}b}'" for x in words) + "]"


# Ten words of length 24, of which no two sums are closer than 3, and the 1,024 sums.
BASIS = [1 << 23 - place | tail for place, tail in enumerate(x for x in range(32) if x.bit_count() >= 2) if place < 10]
SUMS = span(BASIS)

WORDS = f"kind = 'words'\nn = 24\nd = 3\nwords = {texts(SUMS, 24)}\n"
CLOSE = f"kind = 'words'\nn = 24\nd = 4\nwords = {texts(SUMS, 24)}\n"
COSETS = f"kind = 'cosets'\nn = 24\nd = 3\nbasis = {texts(BASIS, 24)}\nrepresentatives = {texts([0], 24)}\n"
CLASSES = ", ".join(texts(SUMS[i:i + 4], 24) for i in range(0, 1024, 4))
PARTITION = f"kind = 'partition'\nn = 24\nd = 3\nd1 = 3\nclasses = [{CLASSES}]\n"
HALVES = "kind = 'partition'\nn = 4\nd = 4\nd1 = 2\nclasses = [['0000', '1111'], ['0011', '1100'], ['0101', '1010'], ['0110', '1001']]\n"
PRODUCT = "kind = 'product'\nn = 8\nd = 4\npairs = [['h', 'h']]\n"
BUILD = f"kind = 'build'\nn = 24\nd = 3\nop = 'translate'\npart = 'p'\nby = '{1:024b}'\n"
DUAL = "kind = 'dual'\nn = 8\nd = 4\nc = [4, 1, 0, 0, 0, 0, 0, 0, 0]\ny = [[4, 1]]\n"


def submit(name, document):
    return f"submit {name}\n{document}end\n"


def come_and_go(name, document):
    return submit(name, document) + f"withdraw {name}\n"


# The mode, what comes first, a turn, how many turns there are, and a word that stands in the answer to each.
CASES = {
    "words": ("session", "", come_and_go("a", WORDS), 200, "accepted"),
    "words that are refused": ("session", "", submit("a", CLOSE), 200, "refused"),
    "cosets": ("session", "", come_and_go("a", COSETS), 1000, "accepted"),
    "a partition": ("session", "", come_and_go("a", PARTITION), 200, "accepted"),
    "a product": ("session", submit("h", HALVES), come_and_go("a", PRODUCT), 4000, "accepted"),
    "a build": ("session", submit("p", COSETS), come_and_go("a", BUILD), 1000, "accepted"),
    "a dual that is refused": ("session", "", submit("a", DUAL), 4000, "refused"),
    "what is no TOML": ("session", "", submit("a", "x" * 20000 + "\n"), 200, "refused"),
    "an id that is taken": ("session", submit("a", WORDS), submit("a", WORDS), 200, "refused"),
    "bounds that are explained": ("session", submit("a", WORDS), "explain lower 24 3\nexplain upper 24 3\n", 2000, "derivation"),
    "codes that are listed": ("session", submit("a", WORDS), "list 16 3\n", 200, "code"),
    "tables": ("session", submit("a", WORDS), "table 3\nledger\n", 400, "pieces"),
    "duals that are found": ("find", "", "24 10\n", 2000, "least"),
}


class Memory(unittest.TestCase):
    def run_within(self, limit, mode, text):
        """The status and the output of a run with so much memory."""
        with tempfile.TemporaryFile() as source:
            source.write(text.encode())
            source.seek(0)
            ended = subprocess.run([program(), mode], stdin=source, capture_output=True,
                                   preexec_fn=lambda: resource.setrlimit(resource.RLIMIT_AS, (limit, limit)))
        return ended.returncode, ended.stdout.decode()

    def least(self, mode, text):
        """The least limit within which a run ends as it does with more, and how it ends."""
        low, high = 0, MOST // STEP
        ending = self.run_within(MOST, mode, text)[0]
        self.assertIn(ending, (DONE, REFUSED))
        while low + 1 < high:
            middle = (low + high) // 2
            if self.run_within(middle * STEP, mode, text)[0] == ending:
                high = middle
            else:
                low = middle
        return high * STEP, ending

    @needs_program
    def test_many_turns_do_with_the_memory_of_a_few(self):
        for name, (mode, first, turn, count, answer) in CASES.items():
            with self.subTest(name):
                few, ending = self.least(mode, first + 3 * turn)
                status, output = self.run_within(few + SLACK, mode, first + count * turn)
                self.assertEqual(status, ending)
                self.assertGreaterEqual(output.count(answer), count)


if __name__ == "__main__":
    unittest.main()

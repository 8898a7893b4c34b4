"""What the table to length 28 wrote is read as before: its dump of the library as it was then, with the replies to it."""

import unittest

from support import data, needs_program, session

from code_tables import sessions

# The dump, and the replies to it and to all columns that there were, a line each.
DUMP, REPLIES = data("to-28/dump.session"), data("to-28/replies").splitlines()
COLUMNS = [f"table {d}" for d in range(3, 29)] + [f"table {d} {w}" for d in range(4, 29, 2) for w in range(29)]


def bounds(lines):
    """The bounds of lines, by entry."""
    return {entry: (low, high) for entry, low, high in map(sessions.bounds_of, lines)}


class EarlierDump(unittest.TestCase):
    @needs_program
    def test_the_dump_is_read_and_written_as_before(self):
        count = len(sessions.commands(DUMP))
        replies = session(DUMP + "dump\n").splitlines(keepends=True)
        self.assertEqual([line.rstrip("\n") for line in replies[:count]], REPLIES[:count])
        self.assertEqual("".join(replies[count:]), DUMP)

    @needs_program
    def test_no_bound_is_worse(self):
        count = len(sessions.commands(DUMP))
        now, before = (bounds(lines[count:]) for lines in (session(DUMP + "".join(f"{c}\n" for c in COLUMNS)).splitlines(), REPLIES))
        self.assertEqual(len(before), 28 * 26 + 13 * (28 * 31 // 2))
        for entry, (low, high) in before.items():
            self.assertTrue(low <= now[entry][0] and now[entry][1] <= high, (entry, low, high, now[entry]))


if __name__ == "__main__":
    unittest.main()

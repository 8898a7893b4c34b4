"""The published values agree with themselves and with what is proved, and there is a row for each open entry of the library."""

import doctest
import unittest

from support import TOP, needs_program

import table
from code_tables import published, sessions

LONGEST = 28


def is_written(entry):
    """Whether an entry is one of those that the file has, and not one that is equal to another."""
    n, d, w = (*entry, 0)[:3]
    return n <= LONGEST and d % 2 == 0 and 2 * w <= n


class Published(unittest.TestCase):
    def test_the_examples(self):
        self.assertEqual(doctest.testmod(published).failed, 0)

    def test_a_lower_bound_is_not_above_its_upper_one(self):
        for entry, told in published.values().items():
            self.assertIsNotNone(told.lower, entry)
            self.assertLessEqual(told.lower, told.upper or told.lower, entry)

    def test_each_entry_has_one_row(self):
        rows = [*published._file()["values"], *published._file()["not known here"]]
        found = [published._entry(row) if isinstance(row, dict) else tuple(row) for row in rows]
        self.assertEqual(len(set(found)), len(found))
        for entry in found:
            self.assertTrue(sessions.is_entry(entry) and is_written(entry), entry)

    def test_a_longer_code_or_a_lesser_distance_has_no_fewer_words(self):
        values = published.values()
        for entry, told in values.items():
            for beside in ((entry[0] + 1, *entry[1:]), (entry[0], entry[1] - 2, *entry[2:])):
                if beside in values:
                    self.assertLessEqual(told.lower, values[beside].lower, (entry, beside))
                    self.assertLessEqual(told.upper or 0, values[beside].upper or told.upper or 0, (entry, beside))

    def test_entries_that_are_equal_have_one_value(self):
        self.assertEqual(published.value(19, 7), published.value(20, 8))
        self.assertEqual(published.value(24, 10, 16), published.value(24, 10, 8))
        self.assertIsNone(published.value(29, 6))
        self.assertIsNone(published.value(28, 5, 3))

    def test_what_is_remembered_of_one_value(self):
        told = published.value(20, 8)
        self.assertEqual((told.lower, told.upper, told.source), (256, 256, "Gijswijt, Mittelmann and Schrijver 2012"))
        self.assertEqual(published.value(15, 4, 6), published.Value(lower=399))

    def test_where_nothing_better_is_known_a_bound_is_proved_here(self):
        told = published.Value(10, 20, "counting", "A 1900")
        for side, here, standing in [("lower", 10, "proved here"), ("lower", 9, "published only"), ("lower", 11, "proved here, above what is remembered: unconfirmed"),
                                     ("upper", 20, "proved here"), ("upper", 21, "published only, by counting"),
                                     ("upper", 19, "proved here, below what is remembered: unconfirmed")]:
            self.assertEqual(published.standing(side, here, told), standing)
        self.assertEqual(published.standing("upper", 21, published.Value(10, 20)), "published only, the technique is not remembered")
        self.assertEqual(published.standing("upper", 21, published.Value(10)), "not known here")

    @needs_program
    def test_each_open_entry_has_a_row_and_no_proof_contradicts_one(self):
        held = table.held(table.read_sessions(sorted((TOP / "examples/library").glob("*.session"))), table.ask_all())
        opened = {entry for entry, (low, high) in held.bounds.items() if low < high and is_written(entry)}
        rows = {*published.values(), *published.unknown()}
        self.assertEqual(opened - rows, set())
        for entry, told in published.values().items():
            low, high = held.bounds[entry]
            self.assertLessEqual(told.lower, high, entry)
            self.assertLessEqual(low, told.upper or low, entry)


if __name__ == "__main__":
    unittest.main()

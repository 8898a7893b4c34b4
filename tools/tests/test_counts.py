"""tools/test.py counts what was skipped in its last line, and says OK only where nothing was."""

import contextlib
import importlib.util
import io
import unittest

from support import TOOLS


def tried(**tests):
    """The last line that a run of tests ends with."""
    spec = importlib.util.spec_from_file_location("tests_of_tools", TOOLS / "test.py")
    module = importlib.util.module_from_spec(spec)
    spec.loader.exec_module(module)
    case = type("Case", (unittest.TestCase,), {f"test_{name}": test for name, test in tests.items()})
    with contextlib.redirect_stderr(io.StringIO()) as said:
        module.Runner(stream=io.StringIO()).run(unittest.defaultTestLoader.loadTestsFromTestCase(case))
    return said.getvalue().splitlines()[-1]


class Counts(unittest.TestCase):
    def test_a_skip_is_counted_in_the_last_line(self):
        built, sage = unittest.skip("the program isn't built"), unittest.skip("sage isn't there")
        self.assertEqual(tried(a=lambda test: None), "1 tests: OK")
        self.assertEqual(tried(a=lambda test: None, b=sage(lambda test: None), c=built(lambda test: None), d=built(lambda test: None)),
                         "4 tests: not all were tried, 3 skipped (2: the program isn't built, 1: sage isn't there)")
        self.assertEqual(tried(a=lambda test: test.fail(), b=sage(lambda test: None)), "2 tests: 1 failed, 1 skipped (1: sage isn't there)")


if __name__ == "__main__":
    unittest.main()

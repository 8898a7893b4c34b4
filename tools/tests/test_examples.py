"""The examples in the tools' own descriptions give what stands there."""

import ast
import doctest
import re
import subprocess
import unittest

import support


def examples(text):
    """The commands of a text, after `    $ `, each with the indented lines that follow it."""
    lines, found = text.split("\n"), []
    for line in lines:
        if line.startswith("    $ "):
            found.append((line[6:], []))
        elif line.startswith("    ") and found and found[-1][1] is not None:
            found[-1][1].append(line[4:])
        elif found:
            found[-1] = (found[-1][0], found[-1][1])
            found.append(("", None))
    return [(command, "".join(said + "\n" for said in output)) for command, output in found if output is not None]


class Examples(unittest.TestCase):
    def test_a_description_shows_what_the_tool_does(self):
        folder = support.workplace(self)
        for tool in sorted(support.TOOLS.glob("*.py")):
            text = ast.get_docstring(ast.parse(tool.read_text()), clean=False) or ""
            for command, output in examples(text):
                if re.search(r"code_tables|keep\.py", command) and not support.HAS_PROGRAM:
                    continue
                with self.subTest(tool=tool.name, command=command):
                    ended = subprocess.run(command, shell=True, cwd=folder, stdout=subprocess.PIPE)
                    self.assertEqual(ended.stdout.decode(), output)

    def test_examples_of_the_shared_module(self):
        from code_tables import sessions
        self.assertEqual(doctest.testmod(sessions).failed, 0)


if __name__ == "__main__":
    unittest.main()

"""docs/THEOREM.md quotes definitions word for word."""
import os
import re
import unittest

TOP = os.path.join(os.path.dirname(os.path.abspath(__file__)), "..", "..")


def text(name):
    with open(os.path.join(TOP, name), encoding="utf-8") as source:
        return source.read()


class Theorem(unittest.TestCase):
    def test_blocks_stand_in_the_files_named_above_them(self):
        blocks = re.findall(r"^`([^`\n]+)`\n```antt\n(.*?)\n```$", text("docs/THEOREM.md"), re.M | re.S)
        self.assertEqual(len(blocks), text("docs/THEOREM.md").count("```antt"))
        for name, block in blocks:
            self.assertIn(block, text(name), name)

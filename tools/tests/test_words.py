"""What all tools have in common: help with an example, and bad words told with status 2."""
import os
import unittest

from tests.made import TOP, run

TOOLS = sorted(name for name in os.listdir(os.path.join(TOP, "tools"))
               if os.path.isfile(os.path.join(TOP, "tools", name)) and "." not in name)


class Words(unittest.TestCase):
    def test_help_has_an_example(self):
        for tool in TOOLS:
            with self.subTest(tool=tool):
                ended = run(tool, "--help")
                self.assertEqual((ended.returncode, ended.stderr), (0, ""))
                self.assertRegex(ended.stdout, f"\nexample:\n(.*\n)*.*tools/{tool}")

    def test_bad_words(self):
        for tool in TOOLS:
            with self.subTest(tool=tool):
                self.assertEqual(run(tool, "--no-such-word").returncode, 2)

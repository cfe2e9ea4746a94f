"""The help of each word: that of `make` has each key of a SPEC."""

import re
import unittest

from networks import flowkeys, groups, helps, spec
from networks.tests import tool


class Helps(unittest.TestCase):
    def test_each_word_has_its_help(self):
        for word, text in helps.WORDS.items():
            status, said, _ = tool.call(word, "--help")
            self.assertEqual(status, 0, word)
            self.assertIn(text.strip(), said, word)

    def test_make_has_each_key_and_kind(self):
        known = set(re.findall(r"[\w-]+", helps.WORDS["make"]))
        keys = {*spec.TOP, *spec.ARRAYS, *spec.DEFAULTS, *spec.NODE, *spec.LINK, *spec.COST, "ports", "place", "a", "b"}
        keys |= {"name", *flowkeys.FLOW, *flowkeys.OWN, *flowkeys.KINDS, *groups.KINDS}
        keys |= {key for _, own in groups.KINDS.values() for key in own}
        self.assertEqual(keys - known, set())

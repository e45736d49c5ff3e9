"""The transcripts: long enough, the same each time, and replayed by the model as they stand."""

import unittest

from .transcripts import all_lines, replay
from .tree import GUARDS


class Transcripts(unittest.TestCase):
    @classmethod
    def setUpClass(cls):
        cls.lines = list(all_lines())

    def test_length(self):
        self.assertGreaterEqual(len(self.lines), 50_000)
        self.assertLessEqual(max(map(len, self.lines)), 131_200)
        self.assertLessEqual(max(len(line) for line in self.lines if line[0] in "cr"), 2 + 2 * 65_552)

    def test_same_each_time(self):
        self.assertEqual(self.lines, list(all_lines()))

    def test_replay(self):
        for answer, stored in replay(self.lines, GUARDS):
            self.assertEqual(answer, stored)

    def test_a_changed_line_is_seen(self):
        changed = [line.replace("c 01072f61", "c 01082f61") for line in self.lines[:10]]
        self.assertTrue(any(answer != stored for answer, stored in replay(changed, GUARDS)))

    def test_both_guards_are_meant(self):
        """One guard for all lists, and either has other answers."""
        for make in GUARDS.values():
            answers = replay(self.lines, dict.fromkeys(GUARDS, make))
            self.assertTrue(any(answer != stored for answer, stored in answers))

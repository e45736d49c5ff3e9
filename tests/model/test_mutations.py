"""The generated lists tell every wrong model from the clean one."""

import unittest

from .mutations import MUTATIONS, caught_by, differs, lists
from .tree import GUARDS


class Mutations(unittest.TestCase):
    @classmethod
    def setUpClass(cls):
        cls.lists = lists()

    def test_every_mutation_is_caught(self):
        survivors = [name for name in MUTATIONS if caught_by(name, self.lists) is None]
        self.assertEqual(survivors, [])

    def test_the_clean_model_is_not(self):
        """Buffers that are longer change no answer either."""
        self.assertFalse(any(differs(GUARDS, recording) for _, recording in self.lists))

"""The lengths and limits that the requirements give as numbers: elsewhere they have names, and follow from one
another.
"""

import unittest

from . import image, rules


class Limits(unittest.TestCase):
    def test_limits(self):
        self.assertEqual((rules.MAX_NODES, rules.MAX_OPEN, rules.MAX_PAGES, rules.PAGE), (256, 32, 1024, 1024))
        self.assertEqual((rules.MAX_SIZE, rules.MAX_PATH, rules.MAX_NAME, rules.MAX_COUNT), (65_536, 255, 32, 4096))
        self.assertEqual((rules.MAX_MODE, rules.MAX_DESCRIPTOR, rules.STAT), (7, 1023, 13))
        self.assertEqual((rules.MAP, rules.UNMAP, rules.UNIT, rules.MAX_MAP), (14, 15, 4096, 65_536))
        self.assertEqual((rules.MAX_MAPS, rules.SPACE, rules.RENAME), (16, 2**64, 16))
        self.assertEqual((rules.NO_SPACE, rules.put(rules.NO_SPACE, rules.ID)), (-28, b"\xe4\xff\xff\xff"))

    def test_lengths(self):
        self.assertEqual((rules.ANSWER, rules.REQUEST, rules.REPLY, image.LONGEST), (9690, 1037, 65_544, 44_776))

"""The image at each layout: each rule of soundness by an image that breaks it alone, the longest image, and reading
back.
"""

import unittest

from .edges import FULL, crowd, edges, image, order_edges, sample
from .image import DELIVERED, LONGEST, MAKER, Layout, longest, read_image, write_image
from .rules import Node, root

# the longest image by hand: a record without its name has 4 + 4 + 1 + 1 + 4 + 1 = 15 bytes, so that there are
# 4 + 15 + 255 * (15 + 32) + 4 + 1,024 * 32 = 44,776; 256 makers are 256 more, 512 ids of 8 bytes 2,048 more
LENGTHS = {DELIVERED: 44_776, Layout(4, True): 45_032, Layout(8, False): 46_824, Layout(8, True): 47_080}
EDGES = [
    (layout, rule, *both) for layout in LENGTHS
    for rule, both in (*edges(layout).items(), *order_edges(layout).items())
]


class Images(unittest.TestCase):
    def test_each_rule(self):
        for layout, rule, sound, broken in EDGES:
            with self.subTest(rule, layout=layout):
                self.assertIsNotNone(read_image(sound, layout))
                self.assertIsNone(read_image(broken, layout))

    def test_longest(self):
        for layout, length in LENGTHS.items():
            with self.subTest(layout=layout):
                data = image(crowd(*FULL), layout=layout)
                self.assertEqual(len(data), length)
                self.assertEqual(longest(layout), length)
                self.assertIsNotNone(read_image(data, layout))
        self.assertEqual(LONGEST, 44_776)

    def test_reads_back(self):
        for layout, rule, sound, _ in EDGES:
            with self.subTest(rule, layout=layout):
                nodes = read_image(sound, layout)
                self.assertEqual(write_image(nodes, [page for node in nodes for page in node.pages], layout), sound)

    def test_sound_at_one_layout(self):
        """No bytes are sound at two layouts: the root's records differ."""
        for layout, rule, sound, _ in EDGES:
            for other in LENGTHS.keys() - {layout}:
                with self.subTest(rule, layout=layout, other=other):
                    self.assertIsNone(read_image(sound, other))

    def test_cut_anywhere(self):
        for layout in LENGTHS:
            whole = image(sample(), layout=layout)
            for length in range(len(whole)):
                with self.subTest(layout=layout, length=length):
                    self.assertIsNone(read_image(whole[:length], layout))

    def test_every_byte_of_an_id(self):
        """Ids that differ in one byte alone are two, and a parent is found by all of its bytes."""
        for layout in LENGTHS:
            for byte in range(1, layout.id_bytes):
                with self.subTest(layout=layout, byte=byte):
                    self.assertIsNotNone(read_image(image(sample(id=4 + 256**byte), layout=layout), layout))
                    self.assertIsNone(read_image(image(sample(parent=2 + 256**byte), layout=layout), layout))

    def test_makers(self):
        """The root's and those of the two nodes behind it, the first of which has a name of one byte."""
        for layout in (layout for layout in LENGTHS if layout.maker):
            data, fields = image(sample(), layout=layout), 2 * layout.id_bytes + 1 + 1
            unnamed = fields + 1 + 4 + 1
            for start in (4, 4 + unnamed, 4 + unnamed + unnamed + 1):
                place = start + fields
                self.assertEqual(data[place], MAKER)
                for maker in (0, 2, 255):
                    with self.subTest(layout=layout, place=place, maker=maker):
                        self.assertIsNone(read_image(data[:place] + bytes([maker]) + data[place + 1 :], layout))

    def test_fields_by_hand(self):
        delivered = "01000000 00000000 02 07 00000000 00", "02000000 01000000 01 06 01040000 01 61"
        wide = (
            "0100000000000000 0000000000000000 02 07 01 00000000 00",
            "0200000000000000 0100000000000000 01 06 01 01040000 01 61",
        )
        nodes = [root(), Node(2, 1, 1, 6, 1025, b"a", [bytes(32), b"\xff" * 32])]
        for layout, records in ((DELIVERED, delivered), (Layout(8, True), wide)):
            with self.subTest(layout=layout):
                data = bytes.fromhex(f"02000000 {' '.join(records)} 02000000") + bytes(32) + b"\xff" * 32
                self.assertEqual(read_image(data, layout), nodes)
                self.assertEqual(write_image(nodes, nodes[1].pages, layout), data)

"""The image that is saved: its bytes, over a layout, and when it is sound (SPECIFICATION 8)."""

from typing import NamedTuple

from .rules import (
    DIRECTORY, FILE, MAX_MODE, MAX_NAME, MAX_NODES, MAX_PAGES, MAX_PATH, MAX_SIZE,
    Node, is_name, pages_of, put, unsigned,
)

DIGEST = 32
MAKER = 1  # the party that made a node: there is no other


class Layout(NamedTuple):
    """The form of a node's record: the width of its ids, and whether its maker's party stands behind the mode."""

    id_bytes: int
    maker: bool


DELIVERED = Layout(4, False)


def longest(layout=DELIVERED):
    """The length of the longest image: every name but the root's of 32 bytes, and as many nodes and pages as may be."""
    unnamed = layout.id_bytes + layout.id_bytes + 1 + 1 + layout.maker + 4 + 1
    return 4 + unnamed + (MAX_NODES - 1) * (unnamed + MAX_NAME) + 4 + MAX_PAGES * DIGEST


LONGEST = longest()  # 44,776


def write_image(nodes, digests, layout=DELIVERED):
    """Two sections, each after its 4-byte count; the digests by node, then by page."""
    records = b"".join(record(node, layout) for node in nodes)
    return put(len(nodes), 4) + records + put(len(digests), 4) + b"".join(digests)


def record(node, layout=DELIVERED):
    return (
        put(node.id, layout.id_bytes) + put(node.parent, layout.id_bytes) + bytes([node.kind, node.mode])
        + (bytes([MAKER]) if layout.maker else b"") + put(node.size, 4) + bytes([len(node.name)]) + node.name
    )


class NoImage(Exception):
    """The bytes end inside a field, or a node's maker is another."""


class Reader:
    def __init__(self, data):
        self.data, self.at = data, 0

    def bytes(self, length):
        part = self.data[self.at : self.at + length]
        if len(part) < length:
            raise NoImage
        self.at += length
        return part

    def number(self, width):
        return unsigned(self.bytes(width))

    def node(self, layout=DELIVERED):
        fields = [self.number(width) for width in (layout.id_bytes, layout.id_bytes, 1, 1)]
        if layout.maker and self.number(1) != MAKER:
            raise NoImage
        return Node(*fields, size=self.number(4), name=self.bytes(self.number(1)))


def read_image(data, layout=DELIVERED):
    """The nodes of a sound image, each with its digests as pages; None where the image is not sound."""
    reader = Reader(data)
    try:
        nodes = [reader.node(layout) for _ in range(reader.number(4))]
        digests = [reader.bytes(DIGEST) for _ in range(reader.number(4))]
    except NoImage:
        return None
    if reader.at != len(data) or not is_sound(nodes, len(digests)):
        return None
    following = iter(digests)
    for node in nodes:
        node.pages = [next(following) for _ in range(pages_of(node.size))]
    return nodes


def is_sound(nodes, digest_count):
    """Every rule of soundness but that nothing follows; of nodes, so for each layout the same."""
    return (
        1 <= len(nodes) <= MAX_NODES
        and is_root(nodes[0])
        and all(map(within_limits, nodes))
        and all(is_name(node.name) and len(node.name) <= MAX_NAME for node in nodes[1:])
        and 0 not in (node.id for node in nodes)
        and len({node.id for node in nodes}) == len(nodes)
        and len(path_lengths(nodes)) == len(nodes)
        and len({(node.parent, node.name) for node in nodes}) == len(nodes)
        and max(path_lengths(nodes)) <= MAX_PATH
        and digest_count == sum(pages_of(node.size) for node in nodes)
        and digest_count <= MAX_PAGES
    )


def is_root(node):
    return (node.id, node.parent, node.kind, node.name) == (1, 0, DIRECTORY, b"")


def within_limits(node):
    largest = {FILE: MAX_SIZE, DIRECTORY: 0}
    return node.mode <= MAX_MODE and node.kind in largest and node.size <= largest[node.kind]


def path_lengths(nodes):
    """The length of the full path of each node that reaches the root by its parents, all of them directories, in
    whatever order they stand.
    """
    children = {}
    for node in nodes[1:]:
        children.setdefault(node.parent, []).append(node)
    lengths, waiting = [], [(nodes[0], 0)]
    while waiting:
        node, length = waiting.pop()
        lengths.append(length)
        if node.kind == DIRECTORY:
            waiting += [(child, length + 1 + len(child.name)) for child in children.pop(node.id, [])]
    return lengths

"""Images at the edge of soundness, over a layout: for each rule one that only just keeps it, and one that breaks it
alone.

Every page is of zeros, so that a host can hold the tree of any sound one.
"""

from dataclasses import replace
from functools import partial

from .image import DELIVERED, write_image
from .rules import (
    DIRECTORY, FILE, MAX_NAME, MAX_NODES, MAX_PAGES, MAX_PATH, MAX_SIZE, PAGE, Node, pages_of, put, root,
)
from .tree import digest

ZEROS = digest(bytes(PAGE))


def image(nodes, tail=b"", layout=DELIVERED):
    return write_image(nodes, [ZEROS] * sum(pages_of(node.size) for node in nodes), layout) + tail


def sample(**changes):
    """A small tree in which the file `f` is changed: /, /d, /d/f, /g, /d/e."""
    nodes = [
        root(),
        Node(2, 1, DIRECTORY, 7, 0, b"d"),
        Node(3, 2, FILE, 6, PAGE + 1, b"f"),
        Node(4, 1, FILE, 4, 10, b"g"),
        Node(5, 2, DIRECTORY, 0, 0, b"e"),
    ]
    nodes[2] = replace(nodes[2], **changes)
    return nodes


def changed_root(**changes):
    return [replace(root(), **changes)]


def files(*sizes):
    """Files in the root with these sizes."""
    return [root(), *(Node(i, 1, FILE, 7, size, b"%d" % i) for i, size in enumerate(sizes, start=2))]


def deep(path_length):
    """Directories with names of 32 bytes down to a path of this length."""
    nodes, left = [root()], path_length
    while left:
        name = b"n" * min(MAX_NAME, left - 1)
        nodes.append(Node(nodes[-1].id + 1, nodes[-1].id, DIRECTORY, 7, 0, name))
        left -= 1 + len(name)
    return nodes


FULL = [MAX_SIZE] * (MAX_PAGES // pages_of(MAX_SIZE))  # 16 files of 64 pages


def ring(count):
    """A directory whose parents lead back to it after so many steps, and a file beside it."""
    ids = [*range(2, 2 + count)]
    nodes = [Node(id, parent, DIRECTORY, 7, 0, b"r") for id, parent in zip(ids, [*ids[1:], ids[0]])]
    return [root(), *nodes, Node(2 + count, 1, FILE, 7, 3, b"f")]


def chain(count):
    """Directories with names of one byte, each in the one before."""
    return [root(), *(Node(id, id - 1, DIRECTORY, 7, 0, b"d") for id in range(2, 2 + count))]


def deepest_first(nodes):
    """The same tree, each node but the root before its parent."""
    return [nodes[0], *reversed(nodes[1:])]


def crowd(*sizes):
    """256 nodes, every name of 32 bytes, the first files with these sizes: with 1,024 pages the longest image."""
    sizes += (0,) * (MAX_NODES - 1 - len(sizes))
    return [root(), *(Node(i, 1, FILE, 7, size, b"%0*d" % (MAX_NAME, i)) for i, size in enumerate(sizes, start=2))]


def edges(layout):
    """Rule: (sound, broken alone)."""
    laid, largest = partial(image, layout=layout), 256**layout.id_bytes - 1
    return {
        "the root's id is 1": (laid(changed_root()), laid(changed_root(id=2))),
        "the root's parent is 0": (laid(changed_root()), laid(changed_root(parent=1))),
        "the root is a directory": (laid(changed_root()), laid(changed_root(kind=FILE))),
        "the root has no name": (laid(changed_root()), laid(changed_root(name=b"r"))),
        "the root's mode": (laid(changed_root(mode=0)), laid(changed_root(mode=8))),
        "the root's size is 0": (laid(changed_root()), laid(changed_root(size=1))),
        "an id isn't 0": (laid(sample(id=largest)), laid(sample(id=0))),
        "ids differ": (laid(sample(id=6)), laid(sample(id=4))),
        "an id isn't the root's": (laid(sample()), laid(sample(id=1))),
        "the parent exists": (laid(sample(parent=1)), laid(sample(parent=9))),
        "the parents end at the root": (laid(sample(parent=2)), laid(ring(2))),
        "the parent is another": (laid(sample(parent=2)), laid(sample(parent=3))),
        "the parent is a directory": (laid(files(0, 0)), laid([*files(0, 0), Node(9, 3, FILE, 7, 0, b"a")])),
        "the root's parent holds nothing": (laid(sample(parent=1)), laid(sample(parent=0))),
        "kind 1": (laid(sample(kind=FILE)), laid(sample(kind=0))),
        "kind 2": (laid(sample(kind=DIRECTORY, size=0)), laid(sample(kind=3, size=0))),
        "the mode": (laid(sample(mode=7)), laid(sample(mode=8))),
        "a directory's size is 0": (laid(sample(kind=DIRECTORY, size=0)), laid(sample(kind=DIRECTORY))),
        "a file's size": (laid(sample(size=MAX_SIZE)), laid(sample(size=MAX_SIZE + 1))),
        "a name has a byte": (laid(sample(name=b" ")), laid(sample(name=b""))),
        "a name has 32 bytes": (laid(sample(name=b"n" * MAX_NAME)), laid(sample(name=b"n" * (MAX_NAME + 1)))),
        "a name isn't .": (laid(sample(name=b"...")), laid(sample(name=b"."))),
        "a name isn't ..": (laid(sample(name=b"..a")), laid(sample(name=b".."))),
        "no slash in a name": (laid(sample(name=b"a.b")), laid(sample(name=b"a/b"))),
        "no 0 in a name": (laid(sample(name=b"a\1b")), laid(sample(name=b"a\0b"))),
        "sibling names differ": (laid(sample(name=b"g")), laid(sample(name=b"e"))),
        "a path has 255 bytes": (laid(deep(MAX_PATH)), laid(deep(MAX_PATH + 1))),
        "a node": (laid([root()]), put(0, 4) + put(0, 4)),
        "256 nodes": (laid(files(*[0] * (MAX_NODES - 1))), laid(files(*[0] * MAX_NODES))),
        "1,024 pages": (laid(files(*FULL)), laid(files(*FULL, 1))),
        "no digest too few": (laid(files(1)), write_image(files(1), [], layout)),
        "no digest too many": (laid(files(1)), write_image(files(1), [ZEROS] * 2, layout)),
        "no node too few": (laid(files(1)), put(1, 4) + laid(files(1))[4:]),
        "no node too many": (laid(files(1)), put(3, 4) + laid(files(1))[4:]),
        "the second count": (laid(files()), laid(files())[:-4] + put(1, 4)),
        "nothing follows": (laid(files(1)), laid(files(1), tail=b"\0")),
        "nothing is cut": (laid(files(1)), laid(files(1))[:-1]),
        "not empty": (laid([root()]), b""),
    }


def order_edges(layout):
    """The same where nodes stand before their parents."""
    laid = partial(image, layout=layout)
    later = [*files(3), Node(9, 8, FILE, 7, 5, b"a"), Node(8, 1, DIRECTORY, 7, 0, b"d")]
    return {
        "the parent may be later": (laid(sample(parent=5)), laid(sample(parent=6))),
        "a later parent is a directory": (laid(later), laid([*later[:-1], replace(later[-1], kind=FILE)])),
        "a later parent's parent is one": (laid(late_uncle(DIRECTORY)), laid(late_uncle(FILE))),
        "the last may be the parent of all": (laid(by_last(1)), laid(by_last(2))),
        "no node is its own parent": (laid(chain(2)), laid(ring(1))),
        "no ring of two": (laid(deepest_first(chain(2))), laid(deepest_first(ring(2)))),
        "no ring of three": (laid(deepest_first(chain(3))), laid(ring(3))),
        "no ring of 200": (laid(chain(127)), laid(ring(200))),
        "no ring of 200, the other way": (laid(deepest_first(chain(127))), laid(deepest_first(ring(200)))),
        "no way into a ring": (laid(late_uncle(DIRECTORY)), laid([*ring(3), Node(9, 3, FILE, 7, 0, b"in")])),
        "a path of 255 bytes, deepest first": (
            laid(deepest_first(deep(MAX_PATH))), laid(deepest_first(deep(MAX_PATH + 1))),
        ),
        "127 directories, deepest first": (laid(deepest_first(chain(127))), laid(deepest_first(chain(128)))),
        "sibling names differ, before their parent": (laid(twins(b"b")), laid(twins(b"a"))),
        "the root is first": (laid(chain(1)), laid(chain(1)[::-1])),
    }


def late_uncle(kind):
    """A file in a directory in a node of this kind, each behind what it holds."""
    return [*files(1), Node(9, 8, FILE, 7, 2, b"a"), Node(8, 7, DIRECTORY, 7, 0, b"b"), Node(7, 1, kind, 7, 0, b"c")]


def by_last(parent):
    """Files and a directory in the last node, whose parent is this one: the root, or what it holds."""
    inside = [Node(2, 9, DIRECTORY, 7, 0, b"d"), *(Node(id, 9, FILE, 7, id, b"%d" % id) for id in range(3, 9))]
    return [root(), *inside, Node(9, parent, DIRECTORY, 7, 0, b"last")]


def twins(name):
    """Two files in a directory behind them, the second with this name."""
    return [root(), Node(3, 2, FILE, 7, 0, b"a"), Node(4, 2, FILE, 7, 0, name), Node(2, 1, DIRECTORY, 7, 0, b"d")]


EDGES = edges(DELIVERED)
ORDER_EDGES = order_edges(DELIVERED)

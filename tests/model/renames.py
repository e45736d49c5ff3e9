"""Renames, written out by hand: each number beside its neighbours, what moves with a node and what stays, and images in
which a node stands before its parent. What a rename's reply may not be stands in `dishonest`.
"""

from . import calls
from .edges import FULL, ORDER_EDGES, crowd, deep, deepest_first, files, image
from .events import Call, Load, Reply, Save
from .image import LONGEST
from .recording import FULL_DISK
from .rules import (
    ANSWER, DIRECTORY, FILE, MAX_COUNT, MAX_NAME, MAX_NODES, MAX_OPEN, MAX_PATH, PAGE, REQUEST, Node, put, root,
)
from .script import load_of

STATUS_0 = Reply(put(0, 4))
LONG = b"n" * (MAX_NAME + 1)
LONGEST_PATH = (b"/" + b"n" * 31) * 7 + b"/" + b"n" * 30  # 255 bytes
TOO_SHORT = ((ANSWER - 1, REQUEST), (ANSWER, REQUEST - 1), (0, 0))


def renamed(s, first, second):
    """The call as it came is the request; done with 0 and no bytes."""
    call = calls.rename(first, second)
    s.expect(f"ask 10{len(first):02x}{(first + second).hex()}", call)
    s.expect("done 0", STATUS_0)
    assert s.steps[-1][1].data == b""


def same(s, path):
    """A node's own path: done, nothing sent."""
    s.expect("done 0", calls.rename(path, path))
    s.expect("refused 61", STATUS_0)


def refused(s, number, *pairs):
    for first, second in pairs:
        s.expect(f"refused {number}", calls.rename(first, second))


def is_at(s, path, id, kind=FILE, mode=7, size=0):
    fields = put(id, 4) + bytes([kind, mode]) + put(size, 4)
    s.expect_end(f"done {size} {fields.hex()}", calls.stat(path))


def absent(s, *paths):
    for path in paths:
        s.expect("refused 2", calls.stat(path))


def saved(s):
    outcome = s.send(Save(LONGEST))
    return outcome.data, outcome.digest


def saves(s, nodes):
    """The image of these nodes, pages of zeros; it is loaded again and saved as it was."""
    data = image(nodes)
    for _ in range(2):
        s.expect(f"done {len(data)} {data.hex()}", Save(len(data)))
        s.expect("done 0", load_of(data))


def a_tree(s):
    """/d (2), /d/e (3), /d/e/x (4), /f (5), /g (6)."""
    for path in (b"/d", b"/d/e"):
        s.do(calls.mkdir(7, path))
    for path in (b"/d/e/x", b"/f"):
        s.do(calls.create(6, path))
    s.do(calls.mkdir(7, b"/g"))


# what moves

def rename_a_file(s):
    a_tree(s)
    renamed(s, b"/f", b"/h")
    is_at(s, b"/h", 5, mode=6)
    absent(s, b"/f")
    s.expect_end("done 3", calls.readdir(b"/"))
    renamed(s, b"/h", b"/d/h")
    absent(s, b"/h", b"/f")
    is_at(s, b"/d/h", 5, mode=6)
    s.expect_end("done 2", calls.readdir(b"/d"))
    renamed(s, b"/d/h", b"/d/e/f")
    renamed(s, b"/d/e/f", b"/f")
    is_at(s, b"/f", 5, mode=6)


def rename_a_directory(s):
    """Its tree goes with it: by the new path all is there, by the old one nothing."""
    a_tree(s)
    renamed(s, b"/d", b"/g/d")
    absent(s, b"/d", b"/d/e", b"/d/e/x")
    for path, id, kind, mode in ((b"/g/d", 2, 2, 7), (b"/g/d/e", 3, 2, 7), (b"/g/d/e/x", 4, 1, 6)):
        is_at(s, path, id, kind, mode)
    s.expect_end("done 1 02000000020164", calls.readdir(b"/g"))
    s.expect_end("done 1 03000000020165", calls.readdir(b"/g/d"))
    s.expect_end("done 7", calls.create(7, b"/g/d/e/y"))
    renamed(s, b"/g/d/e", b"/e")
    for path, id in ((b"/e/x", 4), (b"/e/y", 7)):
        is_at(s, path, id, mode=6 if id == 4 else 7)
    s.expect("ask", calls.readdir(b"/g/d"))
    s.expect("done 0", Reply(b""))
    s.expect_end("done 0", calls.rmdir(b"/g/d"))


def rename_keeps_the_place(s):
    """The records stay in their order: id, mode and size, and for files their digests."""
    a_tree(s)
    nodes = [
        root(), Node(2, 1, DIRECTORY, 7, 0, b"d"), Node(3, 2, DIRECTORY, 7, 0, b"e"), Node(4, 3, FILE, 6, 0, b"x"),
        Node(5, 1, FILE, 6, 0, b"f"), Node(6, 1, DIRECTORY, 7, 0, b"g"),
    ]
    saves(s, nodes)
    renamed(s, b"/f", b"/a-longer-name")
    nodes[4].name = b"a-longer-name"
    saves(s, nodes)
    renamed(s, b"/d/e/x", b"/x")
    nodes[3].parent = 1
    saves(s, nodes)
    renamed(s, b"/d", b"/g/" + LONG[1:])
    nodes[1].parent, nodes[1].name = 6, LONG[1:]
    saves(s, nodes)
    renamed(s, b"/x", b"/g/x")
    nodes[3].parent = 6
    saves(s, nodes)


def rename_before_its_parent(s):
    """The first directory goes into the last, whose record stands behind; its tree is found, saved and loaded."""
    a_tree(s)
    renamed(s, b"/d", b"/g/d")
    data, digest = saved(s)
    assert data.index(b"\1d") < data.index(b"\1g")
    for _ in range(2):
        is_at(s, b"/g/d/e/x", 4, mode=6)
        s.expect_end("done 0", calls.remove(b"/g/d/e/x"))
        s.expect("done 0", Load(data, digest))
    renamed(s, b"/g", b"/f2")
    is_at(s, b"/f2/d/e/x", 4, mode=6)
    refused(s, 22, (b"/f2", b"/f2/d/e/y"), (b"/f2", b"/f2/d/y"))


def rename_turns_a_chain_over(s):
    """/a/b/c becomes /c/b/a: each record stands before its parent's."""
    for path in (b"/a", b"/a/b", b"/a/b/c"):
        s.do(calls.mkdir(7, path))
    renamed(s, b"/a/b/c", b"/c")
    renamed(s, b"/a/b", b"/c/b")
    renamed(s, b"/a", b"/c/b/a")
    s.expect_end("done 5", calls.create(7, b"/c/b/a/x"))
    chain = [Node(2, 3, DIRECTORY, 7, 0, b"a"), Node(3, 4, DIRECTORY, 7, 0, b"b"), Node(4, 1, DIRECTORY, 7, 0, b"c")]
    saves(s, [root(), *chain, Node(5, 2, FILE, 7, 0, b"x")])
    is_at(s, b"/c/b/a/x", 5)
    s.expect_end("done 0", calls.remove(b"/c/b/a/x"))
    s.expect("refused 39", calls.rmdir(b"/c"))
    for path in (b"/c/b/a", b"/c/b", b"/c"):
        s.expect_end("done 0", calls.rmdir(path))
    saves(s, [root()])


def rename_in_a_chain(s):
    """The second takes what the first has left."""
    a_tree(s)
    for first, second in ((b"/f", b"/h"), (b"/d", b"/f"), (b"/h", b"/d"), (b"/f", b"/g/f"), (b"/d", b"/g/f/e/d")):
        renamed(s, first, second)
    is_at(s, b"/g/f/e/d", 5, mode=6)
    is_at(s, b"/g/f", 2, DIRECTORY)
    absent(s, b"/d", b"/f", b"/h")


def rename_two_exchanged(s):
    for path in (b"/a", b"/b"):
        s.do(calls.create(7, path))
    for first, second in ((b"/a", b"/t"), (b"/b", b"/a"), (b"/t", b"/b")):
        renamed(s, first, second)
    saves(s, [root(), Node(2, 1, FILE, 7, 0, b"b"), Node(3, 1, FILE, 7, 0, b"a")])


def rename_to_a_freed_name(s):
    """A removed file's and a removed directory's; what was refused before is then done."""
    a_tree(s)
    refused(s, 17, (b"/f", b"/g"), (b"/g", b"/f"))
    s.expect_end("done 0", calls.rmdir(b"/g"))
    renamed(s, b"/f", b"/g")
    s.expect("refused 20", calls.create(7, b"/g/x"))
    s.expect_end("done 0", calls.remove(b"/g"))
    renamed(s, b"/d", b"/g")
    is_at(s, b"/g/e/x", 4, mode=6)


def rename_frees_its_name(s):
    """Something else is created there, and the two live side by side."""
    a_tree(s)
    renamed(s, b"/d", b"/h")
    s.expect_end("done 7", calls.create(5, b"/d"))
    is_at(s, b"/d", 7, mode=5)
    is_at(s, b"/h/e/x", 4, mode=6)
    s.expect("refused 20", calls.stat(b"/d/e"))
    renamed(s, b"/h/e/x", b"/h/y")
    s.expect_end("done 8", calls.mkdir(7, b"/h/e/x"))
    refused(s, 17, (b"/h/y", b"/h/e/x"), (b"/h/e/x", b"/h/y"), (b"/h", b"/d"))


def rename_only_the_name(s):
    """Longer, shorter, one byte other, with bytes that are no letters."""
    s.do(calls.create(7, b"/a"))
    path = b"/a"
    for name in (b"ab", b"b", LONG[1:], b"n", b"...", b"..a", b"\xff\n ", b"\1", b"a"):
        renamed(s, path, b"/" + name)
        absent(s, path)
        path = b"/" + name
        is_at(s, path, 2)


def rename_of_what_bars(s):
    """No bit of the node itself is asked, nor bit 4 of any; on the way bit 1 alone, of both parents bit 2."""
    s.do(calls.create(0, b"/a"))
    for mode, path in ((7, b"/d"), (0, b"/e"), (7, b"/h")):
        s.do(calls.mkdir(mode, path))
    s.do(calls.mkdir(7, b"/h/i"))
    for mode, path in ((3, b"/d"), (3, b"/h/i"), (1, b"/h"), (3, b"/")):
        s.do(calls.chmod(mode, path))
    renamed(s, b"/a", b"/d/a")
    renamed(s, b"/d/a", b"/h/i/a")
    renamed(s, b"/e", b"/h/i/e")
    is_at(s, b"/h/i/e", 4, DIRECTORY, 0)
    renamed(s, b"/h/i/e", b"/e")


# open files

def rename_an_open_file(s):
    """It is read, written, cut and closed by its handle; descriptor and cursor stay."""
    s.host.new_descriptor = lambda: 7
    handle = s.file(b"/a", b"12345" * 300)
    s.do(calls.seek(handle, 3))
    s.do(calls.mkdir(7, b"/d"))
    renamed(s, b"/a", b"/d/b")
    s.expect("ask 060700000000000000", calls.read(handle, 4))
    s.expect("done 4 34353132", Reply(s.truth))
    s.expect_end("done 2", calls.write(handle, b"xy"))
    is_at(s, b"/d/b", handle, size=1500)
    s.expect("refused 16", calls.open_(1, b"/d/b"))
    s.expect("refused 16", calls.remove(b"/d/b"))
    absent(s, b"/a")
    s.expect_end("done 0", calls.truncate(handle, 8))
    s.expect("done 0", calls.seek(handle, 0))
    s.expect_end("done 8 3132333435313278", calls.read(handle, MAX_COUNT))
    s.expect("refused 16", Save(LONGEST))
    s.expect("ask 0407000000", calls.close(handle))
    s.expect("done 0", STATUS_0)
    s.expect_end(f"done {handle}", calls.open_(1, b"/d/b"))


def rename_above_an_open_file(s):
    """The directory moves, twice; the file in it is read and closed as before."""
    a_tree(s)
    s.expect_end("done 4", calls.open_(3, b"/d/e/x"))
    s.expect_end("done 5", calls.write(4, b"12345"))
    s.expect("done 2", calls.seek(4, 2))
    renamed(s, b"/d", b"/g/d")
    renamed(s, b"/g", b"/h")
    s.expect_end("done 3 333435", calls.read(4, 9))
    is_at(s, b"/h/d/e/x", 4, mode=6, size=5)
    renamed(s, b"/h/d/e/x", b"/x")
    s.expect("refused 16", calls.remove(b"/x"))
    s.expect_end("done 0", calls.close(4))
    s.expect_end("done 0", calls.remove(b"/x"))


def rename_with_rights(s):
    """The handle's rights stay those of its opening."""
    reader, writer = s.file(b"/r", b"12345", rights=1), s.file(b"/w", b"12345", rights=2)
    for first, second in ((b"/r", b"/t"), (b"/w", b"/r"), (b"/t", b"/w")):
        renamed(s, first, second)
    s.expect("refused 9", calls.write(reader, b"x"))
    s.expect("refused 9", calls.read(writer, 1))
    s.expect("done 0", calls.seek(reader, 0))
    s.expect_end("done 5 3132333435", calls.read(reader, 5))
    s.expect_end("done 1", calls.write(writer, b"x"))
    is_at(s, b"/w", reader, size=5)
    is_at(s, b"/r", writer, size=6)


def rename_with_32_open(s):
    """Every one is renamed while it is open, and closed by its handle."""
    s.load(files(*[3] * MAX_OPEN))
    for id in range(2, MAX_OPEN + 2):
        s.do(calls.open_(3, b"/%d" % id))
    for id in range(2, MAX_OPEN + 2):
        renamed(s, b"/%d" % id, b"/n%d" % id)
    for id in (MAX_OPEN + 1, 2, 17):
        s.expect_end("done 3 000000", calls.read(id, 9))
        s.expect_end("done 0", calls.close(id))


def rename_keeps_the_pages(s):
    """Files of other bytes around it: each has its own digests after the move, after a save and after a load."""
    for name in (b"a", b"b", b"c"):
        s.do(calls.close(s.file(b"/" + name, name * (PAGE + 5))))
    s.do(calls.mkdir(7, b"/d"))
    renamed(s, b"/b", b"/d/b")
    renamed(s, b"/a", b"/d/z")
    data, digest = saved(s)
    s.expect_end("done 0", calls.remove(b"/c"))
    s.expect("done 0", Load(data, digest))
    for path, letter in ((b"/d/z", b"a"), (b"/d/b", b"b"), (b"/c", b"c")):
        handle = s.do(calls.open_(1, path)).number
        s.expect_end(f"done {PAGE + 5} {(letter * (PAGE + 5)).hex()}", calls.read(handle, MAX_COUNT))


# form

def rename_forms(s):
    """A length that is 0, past the end or to the end, so that one path is empty; each fault of either path."""
    s.house()
    for call in (
        b"\x10", b"\x10\0", b"\x10\1", b"\x10\1/", b"\x10\2/f", b"\x10\xff/f/g", calls.rename(b"", b""),
        calls.rename(b"", b"/new"), calls.rename(b"/f", b""), calls.rename(b"/f", b"/new", 0),
        calls.rename(b"/f", b"/new", 1), calls.rename(b"/f", b"/new", 3), calls.rename(b"/f", b"/new", 5),
        calls.rename(b"/f", b"/new", 6), calls.rename(b"/f", b"/new", 7), calls.rename(b"/f", b"/new", 255),
    ):
        s.expect("refused 22", call)
    for wrong in (
        b"f", b"f/", b"//", b"/d/", b"//d", b"/d//x", b"/.", b"/..", b"/d/.", b"/d/..", b"/./f", b"/../f", b"/f\0",
        b"/\0", b"/d\0/x", b"\0",
    ):
        refused(s, 22, (wrong, b"/new"), (b"/f", wrong), (wrong, wrong), (b"/none", wrong), (b"/", wrong))
    refused(s, 22, (b"/f", b"/f/"), (b"/f/", b"/f"), (b"/", b"//"))
    s.expect("refused 22", b"\x11" + calls.rename(b"/f", b"/new")[1:])
    renamed(s, b"/f", b"/new")


def rename_split_elsewhere(s):
    """Where the first path ends is said by its length alone: the same bytes are other paths."""
    for path in (b"/a", b"/a/b"):
        s.do(calls.mkdir(7, path))
    refused(s, 2, (b"/a/b/c", b"/d"), (b"/a/b", b"/c/d"))
    refused(s, 22, (b"/a", b"b/c/d"), (b"/a/", b"b/c"), (b"/a/b/c/d", b""))
    refused(s, 2, (b"/a", b"/b/c/d"))
    renamed(s, b"/a/b", b"/c")
    renamed(s, b"/c", b"/a/b")


def rename_22_before_36(s):
    """A fault of form in either path beside a length in either; also in the same one."""
    long = b"/" + LONG
    longer = LONGEST_PATH + b"n"
    for wrong in (b"", b"f", b"/f/", b"/d//x", b"/..", b"/f\0", long + b"/", long + b"/.", b"n" + long):
        refused(s, 22, (long, wrong), (wrong, long), (wrong, longer))
    refused(s, 22, (b"/f", longer + b"/"), (long, b"/f/"), (b"/f", longer + b"\0"))
    s.expect("refused 22", calls.rename(b"/f", longer, 0))
    s.expect("refused 22", calls.rename(long, b"/new", 0))
    s.expect("refused 22", calls.rename(long, b"", 34))
    refused(s, 36, (b"/f", long), (long, b"/f"), (long, long), (b"/f", longer), (long, longer), (b"/", longer))


def rename_36(s):
    """Names of 32 and 33, paths of 255 and 256; the first path has no more than its length can say."""
    name = b"/" + LONG[1:]
    s.do(calls.create(7, b"/f"))
    refused(s, 36, (b"/f", name + b"n"), (name + b"n", b"/f"), (b"/f", b"/none" + name + b"n"))
    renamed(s, b"/f", name)
    renamed(s, name, b"/f")
    refused(s, 2, (LONGEST_PATH, b"/new"), (b"/f", LONGEST_PATH), (LONGEST_PATH, LONGEST_PATH))
    refused(s, 36, (b"/f", LONGEST_PATH + b"n"), (LONGEST_PATH, LONGEST_PATH + b"n"))
    refused(s, 36, (b"/f", b"/n" * 127 + b"/n"), (b"/f", b"/n" * 1000), (b"/none", b"/n" * 128))
    refused(s, 2, (b"/f", b"/n" * 127 + b"n"), (b"/n" * 127, b"/f"))


def rename_to_255(s):
    """Down to the longest path that there is, and back."""
    s.load([*deep(MAX_PATH - 2), Node(90, 1, FILE, 7, 5, b"f"), Node(91, 1, DIRECTORY, 7, 0, b"d")])
    deepest = b"".join(b"/" + node.name for node in s.guard.nodes[1:-2])
    assert len(deepest) == MAX_PATH - 2
    refused(s, 36, (b"/f", deepest + b"/fg"))
    renamed(s, b"/f", deepest + b"/f")
    is_at(s, deepest + b"/f", 90, size=5)
    renamed(s, deepest + b"/f", b"/f")
    renamed(s, b"/d", deepest + b"/d")
    renamed(s, deepest + b"/d", b"/d2")


# the walks

FIRST = {20: b"/f/x", 13: b"/shut/x", 2: b"/none"}
SECOND = {20: b"/f/y", 13: b"/shut/y", 2: b"/none/y"}


def rename_walks(s):
    """The first path first: its number comes whatever the second has."""
    s.house()
    for number, first in FIRST.items():
        refused(s, number, *((first, second) for second in (*SECOND.values(), b"/new", b"/", b"/f", first)))
    for number, second in SECOND.items():
        refused(s, number, *((first, second) for first in (b"/d", b"/d/x", b"/f", b"/kept/x", b"/")))


def rename_walks_far(s):
    """At each component, from the left; a directory on the way that lacks bit 1 bars, the node itself does not."""
    for path in (b"/a", b"/a/b", b"/a/b/c", b"/k", b"/k/l"):
        s.do(calls.mkdir(7, path))
    s.do(calls.create(7, b"/a/b/c/x"))
    for shut in (b"/a", b"/a/b", b"/a/b/c"):
        s.do(calls.chmod(6, shut))
        refused(s, 13, (b"/a/b/c/x", b"/x"), (b"/a/b/c/x", b"/none/x"), (b"/k", b"/a/b/c/y"), (b"/k", b"/a/b/c/x"))
        refused(s, 2, (b"/none", b"/a/b/c/y"))
        s.do(calls.chmod(1, shut))
        refused(s, 20, (b"/a/b/c/x/y", b"/new"), (b"/k", b"/a/b/c/x/y"), (b"/k", b"/a/b/c/x/y/z"))
        refused(s, 2, (b"/a/b/c/y", b"/new"), (b"/a/b/d/x", b"/new"), (b"/k", b"/a/b/d/x"), (b"/k", b"/a/d/c/x"))
        s.do(calls.chmod(7, shut))
    s.do(calls.chmod(6, b"/"))
    refused(s, 13, (b"/k", b"/new"), (b"/k", b"/"), (b"/none", b"/new"), (b"/", b"/k"), (b"/k", b"/k"))
    refused(s, 16, (b"/", b"/"))
    s.do(calls.chmod(7, b"/"))
    s.do(calls.chmod(0, b"/k"))
    renamed(s, b"/k", b"/a/k")
    refused(s, 13, (b"/a/k/l", b"/l"), (b"/a", b"/a/k/l/a"))


def rename_through_itself(s):
    """The second walk goes through the first node, which bars it or is a file, before it is said where that leads."""
    s.house()
    refused(s, 20, (b"/f", b"/f/y"), (b"/d/x", b"/d/x/y"), (b"/mute", b"/mute/y"), (b"/f", b"/f/y/z"))
    refused(s, 13, (b"/shut", b"/shut/y"), (b"/shut", b"/shut/x"))
    refused(s, 2, (b"/d", b"/d/none/y"), (b"/f", b"/none/f"))


# after the walks

def rename_16(s):
    """The root, whatever the second is; `/` to `/` too."""
    s.house()
    refused(s, 16, (b"/", b"/"), (b"/", b"/new"), (b"/", b"/f"), (b"/", b"/d"), (b"/", b"/d/new"), (b"/", b"/kept/new"))
    s.do(calls.chmod(5, b"/"))
    refused(s, 16, (b"/", b"/new"), (b"/", b"/"), (b"/", b"/f"))
    refused(s, 17, (b"/f", b"/"), (b"/d", b"/"), (b"/d/x", b"/"), (b"/kept/full", b"/"))


def rename_to_itself(s):
    """Done before 17, 22 and 13 are asked; nothing is sent, and nothing has changed."""
    s.house()
    handle = s.file(b"/g", b"12345")
    for path in (b"/f", b"/d", b"/d/x", b"/kept/x", b"/kept/e", b"/kept/full/x", b"/mute", b"/shut", b"/g"):
        same(s, path)
    s.do(calls.chmod(5, b"/"))
    same(s, b"/f")
    same(s, b"/d")
    s.do(calls.chmod(5, b"/d"))
    same(s, b"/d/x")
    s.expect("done 0", Call(calls.rename(b"/d/x", b"/d/x"), 2 * ANSWER, 2 * REQUEST))
    s.expect_end("done 0", calls.close(handle))
    is_at(s, b"/g", handle, size=5)
    before = saved(s)
    same(s, b"/kept/x")
    s.expect(f"done {len(before[0])} {before[0].hex()} {before[1].hex()}", Save(LONGEST))


def rename_17(s):
    """A file, a full directory and an empty one, the root; nothing is replaced."""
    a_tree(s)
    s.do(calls.create(7, b"/h"))
    refused(s, 17, (b"/h", b"/f"), (b"/h", b"/d"), (b"/h", b"/g"), (b"/h", b"/d/e"), (b"/h", b"/d/e/x"), (b"/h", b"/"))
    refused(s, 17, (b"/g", b"/f"), (b"/g", b"/d"), (b"/d", b"/g"), (b"/d/e", b"/g"), (b"/d/e/x", b"/f"))
    refused(s, 17, (b"/d/e", b"/d"), (b"/f", b"/h"), (b"/d/e/x", b"/d/e"), (b"/d/e/x", b"/d"), (b"/d/e/x", b"/"))
    renamed(s, b"/h", b"/d/f")
    is_at(s, b"/f", 5, mode=6)


def rename_17_before_22(s):
    """What exists beneath the first."""
    a_tree(s)
    refused(s, 17, (b"/d", b"/d/e"), (b"/d", b"/d/e/x"), (b"/d/e", b"/d/e/x"))
    refused(s, 22, (b"/d", b"/d/f"), (b"/d", b"/d/e/y"), (b"/d/e", b"/d/e/y"))


def rename_17_before_13(s):
    s.house()
    refused(s, 17, (b"/kept/x", b"/f"), (b"/f", b"/kept/x"), (b"/kept/x", b"/kept/e"), (b"/kept/x", b"/"))
    refused(s, 13, (b"/kept/x", b"/g"), (b"/f", b"/kept/g"), (b"/kept/x", b"/kept/g"))


def rename_22_beneath(s):
    """Into itself, into a child, into a grandchild; beside a name that begins alike it is another's."""
    for path in (b"/a", b"/a/b", b"/a/b/c", b"/a/b/c/d", b"/ab", b"/b"):
        s.do(calls.mkdir(7, path))
    for beneath in (b"/a/n", b"/a/b/n", b"/a/b/c/n", b"/a/b/c/d/n", b"/a/a", b"/a/b/a"):
        refused(s, 22, (b"/a", beneath))
    refused(s, 22, (b"/a/b", b"/a/b/n"), (b"/a/b", b"/a/b/c/d/n"), (b"/b", b"/b/b"))
    renamed(s, b"/ab", b"/a/ab")
    renamed(s, b"/a/ab", b"/a/b/ab")
    renamed(s, b"/a/b/c", b"/b/c")
    renamed(s, b"/a/b", b"/b/c/d/b")
    refused(s, 22, (b"/b", b"/b/c/d/b/ab/n"), (b"/b/c", b"/b/c/d/b/ab/n"))
    renamed(s, b"/b", b"/a/b")
    refused(s, 22, (b"/a", b"/a/b/c/d/b/ab/n"), (b"/a/b/c/d", b"/a/b/c/d/b/n"))


def rename_22_before_13(s):
    """The first's parent bars, or the new one, or both."""
    a_tree(s)
    for modes in ((5, 7), (7, 5), (5, 5)):
        for mode, path in zip(modes, (b"/", b"/d")):
            s.do(calls.chmod(mode, path))
        refused(s, 22, (b"/d", b"/d/n"), (b"/d", b"/d/e/n"))
    s.do(calls.chmod(5, b"/d/e"))
    refused(s, 22, (b"/d", b"/d/e/n"))


def rename_22_before_36_beneath(s):
    """The tree would pass 255 beneath itself."""
    s.load(deep(200))
    top = b"/" + LONG[1:]
    refused(s, 22, (top, top + b"/" + b"m" * 32), (top, top + top + b"/" + b"m" * 32))


def rename_13(s):
    """Bit 2 of either parent; each alone and both. Of the directories above them bit 2 is not asked."""
    for path in (b"/a", b"/b", b"/a/x", b"/b/y", b"/a/x/s", b"/b/y/t"):
        s.do(calls.mkdir(7, path))
    s.do(calls.create(7, b"/a/x/f"))
    for first, second, answer in ((5, 7, 13), (7, 5, 13), (5, 5, 13), (1, 3, 13), (3, 1, 13), (3, 3, 0)):
        s.do(calls.chmod(first, b"/a/x"))
        s.do(calls.chmod(second, b"/b/y"))
        for what in (b"/f", b"/s"):
            if answer:
                refused(s, 13, (b"/a/x" + what, b"/b/y" + what))
            else:
                renamed(s, b"/a/x" + what, b"/b/y" + what)
                renamed(s, b"/b/y" + what, b"/a/x" + what)
    for path in (b"/a", b"/b", b"/", b"/a/x/s"):
        s.do(calls.chmod(5, path))
    renamed(s, b"/a/x/f", b"/b/y/t/f")
    refused(s, 13, (b"/b/y", b"/b/z"), (b"/a/x", b"/b/y/x"), (b"/a", b"/c"), (b"/a/x", b"/x"), (b"/b/y/t/f", b"/f"))


def rename_13_in_one_directory(s):
    """It is the parent of both."""
    s.house()
    refused(s, 13, (b"/kept/x", b"/kept/y"), (b"/kept/e", b"/kept/y"))
    s.do(calls.chmod(7, b"/kept"))
    renamed(s, b"/kept/x", b"/kept/y")
    s.do(calls.chmod(5, b"/"))
    refused(s, 13, (b"/f", b"/g"), (b"/d", b"/g"))
    renamed(s, b"/d/x", b"/d/y")
    refused(s, 13, (b"/d/y", b"/y"), (b"/f", b"/d/f"))


def near_the_limit(s, length):
    """/t holds a way down whose longest path has as many bytes behind /t; a wide directory /w to go to."""
    tree = [Node(node.id + 10, node.parent + 10, *fields(node)) for node in deep(length)[1:]]
    top = Node(11, 1, DIRECTORY, 7, 0, b"t")
    others = [Node(2, 1, DIRECTORY, 7, 0, b"w"), Node(3, 11, FILE, 7, 0, b"x"), Node(4, 11, DIRECTORY, 7, 0, b"y")]
    s.load([root(), top, *tree, *others])


def fields(node):
    return node.kind, node.mode, node.size, node.name


def rename_36_beneath(s):
    """A path beneath of exactly 255 bytes at the new place, and of 256; the longest is not the last."""
    near_the_limit(s, 222)
    refused(s, 36, (b"/t", b"/w/" + b"n" * 31), (b"/t", b"/w/" + b"n" * 32))
    for name in (b"n" * 30, b"m" * 30, b"n" * 29):
        renamed(s, b"/t", b"/w/" + name)
        renamed(s, b"/w/" + name, b"/t")
    renamed(s, b"/t", b"/" + b"n" * 32)
    refused(s, 36, (b"/" + b"n" * 32, b"/w/" + b"n" * 31))
    renamed(s, b"/" + b"n" * 32, b"/t")
    near_the_limit(s, 223)
    refused(s, 36, (b"/t", b"/" + b"n" * 32), (b"/t", b"/w/" + b"n" * 30))
    renamed(s, b"/t", b"/" + b"n" * 31)
    near_the_limit(s, 253)
    refused(s, 36, (b"/t", b"/tt"), (b"/t", b"/w/t"))
    renamed(s, b"/t", b"/u")
    same(s, b"/u")


def rename_36_far_beneath(s):
    """Many short names: 125 directories below the one that moves."""
    below = [Node(id, id - 1, DIRECTORY, 7, 0, b"d") for id in range(3, 128)]
    s.load([root(), Node(2, 1, DIRECTORY, 7, 0, b"t"), *below, Node(200, 1, DIRECTORY, 7, 0, b"w")])
    renamed(s, b"/t", b"/tttt")
    refused(s, 36, (b"/tttt", b"/ttttt"), (b"/tttt", b"/w/ttt"))
    renamed(s, b"/tttt", b"/w/tt")
    s.expect_end("done", calls.stat(b"/w/tt" + b"/d" * 125))


def rename_36_beside_a_deeper_one(s):
    """The longest path beneath is a child's, before others that lie deeper."""
    inside = [Node(92, 90, FILE, 7, 0, b"n" * 32), Node(93, 90, DIRECTORY, 7, 0, b"a"), Node(94, 93, FILE, 7, 0, b"b")]
    for length, answer in ((220, 0), (221, 36)):
        s.load([*deep(length), Node(90, 1, DIRECTORY, 7, 0, b"t"), *inside])
        there = b"".join(b"/" + node.name for node in deep(length)[1:]) + b"/t"
        refused(s, 36, (b"/t", there)) if answer else renamed(s, b"/t", there)


def rename_36_out_of_order(s):
    """The longest path beneath goes by nodes that stand before their parents."""
    tree = [Node(node.id + 10, node.parent + 10, *fields(node)) for node in deep(222)[1:]]
    s.load([root(), *reversed(tree), Node(2, 1, DIRECTORY, 7, 0, b"w"), Node(11, 1, DIRECTORY, 7, 0, b"t")])
    refused(s, 36, (b"/t", b"/w/" + b"n" * 31))
    refused(s, 22, (b"/t", b"/t/" + b"n" * 32 + b"/m"))
    renamed(s, b"/t", b"/w/" + b"n" * 30)
    s.expect("done", Save(LONGEST))


def rename_13_before_36(s):
    """Either parent bars a tree that would pass 255."""
    near_the_limit(s, 223)
    for mode, path in ((5, b"/w"), (5, b"/"), (7, b"/w")):
        s.do(calls.chmod(mode, path))
        refused(s, 13, (b"/t", b"/w/" + b"n" * 32))
    s.do(calls.chmod(7, b"/"))
    refused(s, 36, (b"/t", b"/w/" + b"n" * 32))


def rename_17_before_36(s):
    near_the_limit(s, 250)
    s.do(calls.create(7, b"/w/" + b"n" * 32))
    refused(s, 17, (b"/t", b"/w/" + b"n" * 32))
    s.do(calls.remove(b"/w/" + b"n" * 32))
    refused(s, 36, (b"/t", b"/w/" + b"n" * 32))


# tables at their limits

def rename_in_a_full_table(s):
    """256 nodes: no room is needed. Every file goes into the one directory, which then moves with all of them."""
    nodes = [*files(*[0] * (MAX_NODES - 3)), Node(900, 1, DIRECTORY, 7, 0, b"d"), Node(901, 1, DIRECTORY, 7, 0, b"g")]
    s.load([nodes[0], *nodes[2:], replace_parent(nodes[1], 900)])
    for id in (3, 100, 254):
        renamed(s, b"/%d" % id, b"/d/%d" % id)
    renamed(s, b"/d", b"/g/d")
    s.expect_end("done 0", calls.stat(b"/g/d/100"))
    s.expect_end("done 4", calls.readdir(b"/g/d"))
    s.expect("refused 28", calls.create(7, b"/new"))


def replace_parent(node, parent):
    node.parent = parent
    return node


def rename_beside_full_pages(s):
    """1,024 pages and the longest image; it is as long after the move."""
    s.load(crowd(*FULL))
    renamed(s, b"/%032d" % 2, b"/" + b"m" * 32)
    renamed(s, b"/%032d" % MAX_NODES, b"/%032d" % 2)
    s.expect(f"done {LONGEST}", Save(LONGEST))
    s.expect("refused 34", Save(LONGEST - 1))


# when it may come, and what answers it

def rename_while_pending(s):
    a_tree(s)
    s.expect("ask", calls.stat(b"/f"))
    refused(s, 114, (b"/f", b"/h"), (b"/f", b"/f"), (b"/", b"/"), (b"", b""))
    s.expect("done", Reply(s.truth))
    s.expect("ask", calls.rename(b"/f", b"/h"))
    for event in (Call(calls.rename(b"/f", b"/h")), Call(calls.stat(b"/")), Save(LONGEST), load_of(b"")):
        s.expect("refused 114", event)
    s.expect("done 0", STATUS_0)
    s.expect("refused 61", STATUS_0)
    is_at(s, b"/h", 5, mode=6)


def rename_short_buffers(s):
    """34 before all that the call says; a reply refused so may come again."""
    a_tree(s)
    for lengths in TOO_SHORT:
        for first, second in ((b"/f", b"/h"), (b"/f", b"/f"), (b"", b""), (b"/f", b"/" + LONG), (b"/", b"/")):
            s.expect("refused 34", Call(calls.rename(first, second), *lengths))
    s.expect("ask", calls.rename(b"/f", b"/h"))
    for lengths in TOO_SHORT:
        for data in (put(0, 4), b"", FULL_DISK):
            s.expect("refused 34", Reply(data, *lengths))
    s.expect("done 0", STATUS_0)


def rename_longer_buffers(s):
    a_tree(s)
    for lengths in ((ANSWER + 1, REQUEST), (ANSWER, REQUEST + 1), (2 * ANSWER, 2 * REQUEST)):
        for first, second in ((b"/f", b"/d/f"), (b"/d/f", b"/f")):
            call = calls.rename(first, second)
            s.expect(f"ask {call.hex()}", Call(call, *lengths))
            s.expect("done 0", Reply(put(0, 4), *lengths))


def stopped_by(s, reason, reply):
    """The reply to a rename stops the guard for good."""
    a_tree(s)
    s.expect("ask", calls.rename(b"/d", b"/g/d"))
    s.expect(f"stopped {reason}", Reply(reply))
    refused(s, 5, (b"/d", b"/g/d"), (b"/d", b"/d"), (b"", b""))
    for event in (STATUS_0, Save(LONGEST), load_of(image([root()]))):
        s.expect("refused 5", event)


def rename_answered_1(s):
    stopped_by(s, 2, put(1, 4))


def rename_answered_an_id(s):
    stopped_by(s, 2, put(2, 4))


def rename_answered_a_page(s):
    stopped_by(s, 2, put(PAGE, 4))


def rename_answered_17(s):
    stopped_by(s, 2, put(-17, 4))


def rename_answered_28(s):
    """A full disk ends no rename."""
    stopped_by(s, 2, FULL_DISK)


def rename_answered_nothing(s):
    stopped_by(s, 1, b"")


def rename_answered_3_bytes(s):
    stopped_by(s, 1, bytes(3))


def rename_answered_5_bytes(s):
    stopped_by(s, 1, bytes(5))


def rename_answered_8_bytes(s):
    stopped_by(s, 1, FULL_DISK + bytes(4))


# images in any order

def rename_loads(s):
    """Each rule of the order of nodes; a sound one is saved as it came."""
    for sound, broken in ORDER_EDGES.values():
        s.expect("refused 84", load_of(broken))
        s.expect("done 0", load_of(sound))
        s.expect(f"done {len(sound)} {sound.hex()}", Save(len(sound)))


def rename_in_a_loaded_order(s):
    """A tree whose nodes stand deepest first is walked, moved and closed up as any other."""
    s.load(deepest_first(deep(90)))
    a, b = b"/" + LONG[1:], b"/" + LONG[1:] + b"/" + LONG[1:]
    s.expect_end("done", calls.stat(b))
    refused(s, 22, (a, b + b"/m"))
    renamed(s, b, b"/b")
    s.expect_end("done", calls.readdir(b"/b"))
    s.expect_end("done 0", calls.rmdir(a))
    s.expect("refused 39", calls.rmdir(b"/b"))
    s.expect("done", Save(LONGEST))


RENAMES = [function for name, function in list(globals().items()) if name.startswith("rename_")]

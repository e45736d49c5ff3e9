"""A read-only guard, written out by hand: what it takes, what it refuses and in which order, and that the image it
saves is the one that it last loaded. What it loads, another guard has made, whose host is then its own.
"""

from . import calls
from .edges import FULL, ORDER_EDGES, ZEROS, crowd, deep, files, image
from .events import Call, Load, Reply, Save
from .image import LONGEST
from .recording import FULL_DISK
from .rules import (
    ANSWER, DIRECTORY, FILE, READ_ONLY_KINDS, MAX_COUNT, MAX_MAP, MAX_NAME, MAX_NODES, MAX_OPEN, MAX_PATH, MAX_SIZE, OPEN, PAGE,
    READ_RIGHT, READDIR, RENAME, REQUEST, SPACE, UNIT, Node, put, root,
)
from .script import Script, load_of
from .tree import read_only_guard

STATUS_0 = Reply(put(0, 4))
LONG = b"n" * (MAX_NAME + 1)
TOO_SHORT = ((ANSWER - 1, REQUEST), (ANSWER, REQUEST - 1), (0, 0))
LONGER = ((ANSWER + 1, REQUEST), (ANSWER, REQUEST + 1), (2 * ANSWER, 2 * REQUEST))
TEXT = b"".join(b"%07d " % i for i in range(600))  # 4,800 bytes, each page other than the rest
FRESH_IMAGE = image([root()])

# one call of each kind that is not taken, each right in form, and in itself possible in the house
CHANGES = [
    calls.create(7, b"/new"), calls.mkdir(7, b"/new"), calls.open_(2, b"/f"), calls.open_(3, b"/f"),
    calls.write(2, b"x"), calls.truncate(2, 0), calls.remove(b"/f"), calls.rmdir(b"/kept/e"), calls.chmod(7, b"/f"),
    calls.map_(UNIT), calls.unmap(UNIT),
]
REFUSED = [*CHANGES, calls.rename(b"/f", b"/new")]
# one of each kind that is taken
TAKEN = [
    calls.open_(1, b"/f"), calls.close(2), calls.seek(2, 0), calls.read(2, 1), calls.readdir(b"/"), calls.stat(b"/"),
]


class ReadOnlyScript(Script):
    def __init__(self):
        super().__init__(read_only_guard)

    def take(self, made):
        """Loads what another guard has saved last, and asks its host from now on."""
        self.host = made.host
        self.last = made.saved
        self.expect("done 0", Load(*self.last))

    def is_last(self):
        """A save gives the image that was loaded last."""
        data, digest = self.last
        self.expect(f"done {len(data)} {data.hex()} {digest.hex()}", Save(len(data)))

    def refuses(self, number, *some, lengths=(ANSWER, REQUEST)):
        for call in some:
            self.expect(f"refused {number}", Call(call, *lengths))

    def open(self, path):
        """Opened for reading; its handle."""
        self.expect(f"ask {calls.open_(READ_RIGHT, path).hex()}", calls.open_(READ_RIGHT, path))
        return self.finish().number

    def stop(self):
        """A wrong reply to a stat."""
        self.expect("ask", calls.stat(b"/"))
        self.expect("stopped 1", Reply(b""))


# what another guard makes

def saved(s):
    outcome = s.send(Save(LONGEST))
    s.saved = outcome.data, outcome.digest
    return s


def fill(s, path, data):
    """A file's bytes, some of which were others before."""
    handle = s.do(calls.open_(3, path)).number
    for at in range(0, len(data), MAX_COUNT):
        s.do(calls.write(handle, data[at : at + MAX_COUNT].upper()))
    s.do(calls.seek(handle, 0))
    for at in range(0, len(data), MAX_COUNT):
        s.do(calls.write(handle, data[at : at + MAX_COUNT]))
    s.do(calls.close(handle))


def house():
    """Directories that lack a bit each, a file without any; /f has five pages, the last of them in part."""
    s = Script()
    s.do(calls.create(4, b"/f"))
    s.do(calls.chmod(7, b"/f"))
    s.house()
    fill(s, b"/f", TEXT)
    fill(s, b"/d/x", b"a page's worth " * 68 + b"1234")
    s.do(calls.chmod(4, b"/d/x"))
    s.do(calls.create(2, b"/d/heard"))
    return saved(s)


def small():
    """/a, /a/x of a page and five bytes, /a/y of as many others, /e, empty."""
    s = Script()
    s.do(calls.mkdir(7, b"/a"))
    for path, letters in ((b"/a/x", b"ab"), (b"/a/y", b"cd")):
        s.do(calls.create(6, path))
        fill(s, path, letters[:1] * PAGE + letters[1:] * 5)
    s.do(calls.mkdir(5, b"/e"))
    return saved(s)


def trees(*nodes):
    """Files of zeros."""
    s = Script()
    s.load(list(nodes))
    return saved(s)


# what it takes

def read_only_fresh(s):
    """Nothing but the root, and nothing comes to it."""
    s.expect_end("done 0 010000000207" + "00" * 4, calls.stat(b"/"))
    s.expect("ask 0c2f", calls.readdir(b"/"))
    s.expect("done 0", Reply(b""))
    for call in REFUSED:
        s.refuses(30, call)
        s.expect(f"done {len(FRESH_IMAGE)} {FRESH_IMAGE.hex()}", Save(23))
    s.refuses(2, calls.stat(b"/new"), calls.open_(1, b"/new"), calls.readdir(b"/new"))
    s.refuses(9, calls.close(2), calls.seek(2, 0), calls.read(2, 0))


def read_only_reads(s):
    """Over the pages' edges, from each side; the cursor goes on."""
    s.take(house())
    handle = s.open(b"/f")
    for start, count in (
        (0, 1), (0, PAGE), (PAGE - 1, 2), (PAGE, PAGE), (PAGE + 1, PAGE), (1, MAX_COUNT), (4 * PAGE, PAGE),
        (len(TEXT) - 1, 1), (len(TEXT) - 1, 2), (700, MAX_COUNT),
    ):
        part = TEXT[start : start + count]
        s.expect(f"done {start}", calls.seek(handle, start))
        s.expect_end(f"done {len(part)} {part.hex()}", calls.read(handle, count))
    s.expect("done 0", calls.seek(handle, 0))
    s.expect_end("done 1000", calls.read(handle, 1000))
    s.expect_end(f"done 1000 {TEXT[1000:2000].hex()}", calls.read(handle, 1000))
    s.expect("done 0", calls.read(handle, 0))
    s.expect(f"done {len(TEXT)}", calls.seek(handle, len(TEXT)))
    for count in (0, 1, MAX_COUNT):
        s.expect("done 0", calls.read(handle, count))
    s.refuses(22, calls.seek(handle, len(TEXT) + 1), calls.read(handle, MAX_COUNT + 1))
    s.expect_end("done 0", calls.close(handle))
    s.refuses(9, calls.read(handle, 1))
    s.is_last()


def read_only_shows(s):
    """Stats and listings of all that the modes let through; what they bar."""
    s.take(house())
    s.expect_end(f"done {len(TEXT)} 020000000107{put(len(TEXT), 4).hex()}", calls.stat(b"/f"))
    for path in (b"/", b"/d", b"/d/x", b"/kept/full/x", b"/mute", b"/shut", b"/blind"):
        s.expect_end("done", calls.stat(path))
    for path, count in ((b"/", 6), (b"/d", 2), (b"/shut", 1), (b"/kept", 3), (b"/kept/full", 1)):
        s.expect_end(f"done {count}", calls.readdir(path))
    s.expect("ask", calls.readdir(b"/kept/e"))
    s.expect("done 0", Reply(b""))
    s.refuses(13, calls.readdir(b"/blind"), calls.stat(b"/shut/x"), calls.open_(1, b"/shut/x"))
    s.refuses(13, calls.open_(1, b"/mute"), calls.open_(1, b"/d/heard"), calls.readdir(b"/shut/x"))
    s.refuses(20, calls.stat(b"/f/x"), calls.readdir(b"/f"), calls.open_(1, b"/d/x/y"))
    s.refuses(21, calls.open_(1, b"/"), calls.open_(1, b"/d"))
    s.expect_end("done", calls.open_(1, b"/d/x"))
    s.refuses(16, calls.open_(1, b"/d/x"))


def read_only_two_files(s):
    """Each has its own cursor and descriptor; one is closed, and the other is still there."""
    s.take(small())
    one, other = s.open(b"/a/x"), s.open(b"/a/y")
    s.expect_end("done 3 616161", calls.read(one, 3))
    s.expect_end("done 2 6363", calls.read(other, 2))
    s.expect(f"done {PAGE - 1}", calls.seek(one, PAGE - 1))
    s.refuses(30, *REFUSED, calls.write(one, b"x"), calls.truncate(one, 1))
    s.expect_end("done 6 616262626262", calls.read(one, MAX_COUNT))
    s.expect("ask 0400000000", calls.close(one))
    s.expect("done 0", STATUS_0)
    s.expect_end("done 1 63", calls.read(other, 1))
    s.refuses(9, calls.close(one), calls.seek(one, 0))
    s.refuses(30, calls.write(other, b""), calls.truncate(other, PAGE + 5))
    s.expect("ask 0401000000", calls.close(other))
    s.expect("done 0", STATUS_0)
    s.is_last()


def read_only_many_nodes(s):
    """256, with the longest listing; one of every kind is refused before anything is counted."""
    s.take(trees(*crowd(3)))
    s.expect_end(f"done {MAX_NODES - 1}", calls.readdir(b"/"))
    s.refuses(30, calls.create(7, b"/a"), calls.mkdir(7, b"/a"))
    s.expect_end("done 3", calls.stat(b"/%032d" % 2))
    s.is_last()


def read_only_deep(s):
    """A path of 255 bytes, and one of 256."""
    s.take(trees(*deep(MAX_PATH)))
    path = b"".join(b"/" + node.name for node in s.guard.nodes[1:])
    s.expect_end("done 0", calls.stat(path))
    s.expect("ask", calls.readdir(path))
    s.expect("done 0", Reply(b""))
    s.refuses(30, calls.create(7, path), calls.rmdir(path), calls.chmod(0, path), calls.open_(2, path))
    s.refuses(36, *(make(path + b"n") for make in (calls.stat, calls.rmdir, calls.readdir, calls.remove)))


def read_only_32_files(s):
    s.take(trees(*files(*[3] * (MAX_OPEN + 1))))
    for i in range(MAX_OPEN):
        s.open(b"/%d" % (i + 2))
    last = b"/%d" % (MAX_OPEN + 2)
    s.refuses(24, calls.open_(1, last))
    s.refuses(30, calls.open_(2, last), calls.open_(3, last), calls.open_(2, b"/2"), calls.remove(b"/2"))
    s.refuses(16, calls.open_(1, b"/2"))
    s.expect_end("done 0", calls.close(7))
    s.expect_end(f"done {MAX_OPEN + 2}", calls.open_(1, last))


# what it does not take

def read_only_refuses_each(s):
    """Nothing of it is sent, and nothing is other than before."""
    s.take(house())
    for call in REFUSED:
        s.refuses(30, call)
        s.expect("refused 61", STATUS_0)
        s.is_last()
    s.expect_end("done 6", calls.readdir(b"/"))
    s.expect_end(f"done {len(TEXT)}", calls.stat(b"/f"))


def read_only_rights(s):
    s.take(house())
    for path in (b"/f", b"/d/x", b"/none", b"/shut/x", b"/mute", b"/d", b"/"):
        s.refuses(22, calls.open_(0, path), calls.open_(4, path), calls.open_(255, path))
        s.refuses(30, calls.open_(2, path), calls.open_(3, path))
    s.expect("ask 03012f66", calls.open_(1, b"/f"))


def read_only_makes_nothing(s):
    """Create, mkdir and chmod: of what is there, is not, cannot be, may not be."""
    s.take(house())
    paths = b"/", b"/f", b"/d", b"/new", b"/none/new", b"/f/new", b"/shut/new", b"/kept/new", b"/shut/x", b"/mute"
    for make in (calls.create, calls.mkdir, calls.chmod):
        for path in paths:
            s.refuses(30, make(7, path))
        s.refuses(30, make(0, b"/new"), make(3, b"/f"))
        s.refuses(22, make(8, b"/new"), make(255, b"/f"), make(8, b"/shut/x"), make(7, b""), make(7, b"new"))
        s.refuses(22, make(7, b"/f/"), make(7, b"//f"), make(7, b"/d/.."), make(7, b"/f\0"), make(7, b"/.")[:1])
        s.refuses(36, make(7, b"/" + LONG), make(0, b"/none/" + LONG), make(7, b"/shut/" + LONG))
        s.refuses(22, make(8, b"/" + LONG), make(7, b"/" + LONG + b"/"))
    s.is_last()


def read_only_removes_nothing(s):
    s.take(house())
    for make in (calls.remove, calls.rmdir):
        for path in (b"/", b"/f", b"/d", b"/d/x", b"/none", b"/f/x", b"/shut/x", b"/kept/e", b"/kept/full", b"/kept/x"):
            s.refuses(30, make(path))
        s.refuses(22, make(b""), make(b"f"), make(b"/f/"), make(b"/d//x"), make(b"/.."), make(b"/" + LONG + b"/"))
        s.refuses(36, make(b"/" + LONG), make(b"/f/" + LONG))
    s.is_last()


def read_only_changes_no_file(s):
    """Write and truncate: with a handle, with none, with more than a file or all files may have."""
    s.take(house())
    handle = s.open(b"/f")
    for of in (handle, 99, 0, 0xFFFF_FFFF):
        s.refuses(30, *(calls.write(of, data) for data in (b"", b"x", bytes(MAX_COUNT))))
        s.refuses(22, calls.write(of, bytes(MAX_COUNT + 1)), calls.write(of, b"")[:-1])
        for size in (0, 1, PAGE, len(TEXT), MAX_SIZE, MAX_SIZE + 1, SPACE - 1):
            s.refuses(30, calls.truncate(of, size))
        s.refuses(22, calls.truncate(of, 0)[:-1], calls.truncate(of, 0) + b"\0")
    s.expect_end(f"done {MAX_COUNT} {TEXT[:MAX_COUNT].hex()}", calls.read(handle, MAX_COUNT))
    s.expect_end("done 0", calls.close(handle))
    s.refuses(30, calls.write(handle, b"x"), calls.truncate(handle, 0))
    s.is_last()


def read_only_maps_nothing(s):
    """The length is form; which maps live is not looked at."""
    for length in (UNIT, 2 * UNIT, MAX_MAP - UNIT, MAX_MAP):
        s.refuses(30, calls.map_(length))
    for length in (0, 1, UNIT - 1, UNIT + 1, MAX_MAP + 1, MAX_MAP + UNIT, 1 << 31, (1 << 32) - UNIT):
        s.refuses(22, calls.map_(length))
    s.refuses(22, calls.map_(UNIT)[:-1], calls.map_(UNIT) + b"\0", calls.unmap(UNIT)[:-1], calls.unmap(UNIT) + b"\0")
    for address in (0, 1, UNIT, UNIT + 1, 1 << 32, SPACE - UNIT, SPACE - 1):
        s.refuses(30, calls.unmap(address))
    for _ in range(17):
        s.refuses(30, calls.map_(UNIT))


def read_only_renames_nothing(s):
    """30 behind each fault of form and each length of either path, before the walks and all that follows them."""
    s.take(house())
    long, longest = b"/" + LONG, b"/n" * 127 + b"/n"
    for first, second in (
        (b"/f", b"/new"), (b"/d", b"/new"), (b"/d/x", b"/y"), (b"/f", b"/d/f"), (b"/d", b"/blind/d"), (b"/f", b"/f"),
        (b"/", b"/"), (b"/", b"/new"), (b"/f", b"/"), (b"/f", b"/d"), (b"/d", b"/d/y"), (b"/d", b"/d/x"),
        (b"/kept/x", b"/y"), (b"/f", b"/kept/f"), (b"/kept/x", b"/kept/y"), (b"/kept/x", b"/kept/x"),
        (b"/f/x", b"/new"), (b"/shut/x", b"/new"), (b"/none", b"/new"), (b"/f", b"/f/x"), (b"/f", b"/shut/f"),
        (b"/f", b"/none/f"), (b"/" + LONG[1:], longest[:-2]),
    ):
        s.refuses(30, calls.rename(first, second))
    for wrong in (b"", b"f", b"/f/", b"/d//x", b"/..", b"/f\0", long + b"/", longest + b"/"):
        s.refuses(22, calls.rename(b"/f", wrong), calls.rename(long, wrong))
        s.refuses(22, calls.rename(wrong[:255], b"/new"), calls.rename(wrong[:255], long))
    wrong = (calls.rename(b"/f", b"/new", length) for length in (0, 1, 3, 6, 9))
    s.refuses(22, b"\x10", b"\x10\0", b"\x10\2/f", *wrong)
    s.refuses(36, calls.rename(b"/f", long), calls.rename(long, b"/f"), calls.rename(b"/none", longest))
    s.refuses(36, calls.rename(long, longest), calls.rename(b"/", long), calls.rename(b"/f/x", b"/shut" + long))
    s.is_last()


def read_only_renamed_elsewhere(s):
    """What another guard has renamed is read here, and saved with each node before its parent."""
    made = Script()
    for path in (b"/a", b"/b"):
        made.do(calls.mkdir(7, path))
    made.do(calls.create(6, b"/a/x"))
    fill(made, b"/a/x", TEXT[:PAGE])
    made.do(calls.rename(b"/a", b"/b/a"))
    s.take(saved(made))
    s.is_last()
    s.refuses(2, calls.stat(b"/a"), calls.open_(1, b"/a/x"))
    handle = s.open(b"/b/a/x")
    s.refuses(30, calls.rename(b"/b/a", b"/a"), calls.rename(b"/b/a/x", b"/b/a/x"))
    s.expect_end(f"done {PAGE} {TEXT[:PAGE].hex()}", calls.read(handle, MAX_COUNT))
    s.expect_end("done 0", calls.close(handle))
    s.expect_end("done 1", calls.readdir(b"/b"))
    s.is_last()
    for sound, broken in ORDER_EDGES.values():
        s.expect("refused 84", load_of(broken))
        s.expect("done 0", load_of(sound))
        s.expect(f"done {len(sound)} {sound.hex()}", Save(len(sound)))


def read_only_other_kinds(s):
    """There are none: that is a fault of form."""
    s.refuses(22, b"", b"\0", b"\0/f")
    for kind in (RENAME + 1, RENAME + 2, RENAME + 3, 32, 127, 255):
        s.refuses(22, bytes([kind]), bytes([kind]) + b"/f", bytes([kind, 1]) + b"/f", bytes([kind]) + put(2, 8))
    s.refuses(22, *(call[:1] for call in (*REFUSED, *TAKEN)))


# the order of the numbers: for each two an event that both are right for

def read_only_5_first(s):
    s.take(house())
    s.stop()
    for call in (*REFUSED, *TAKEN, b"", b"\x10", calls.create(8, b"/a"), calls.create(7, b"/" + LONG)):
        s.refuses(5, call)
    for lengths in TOO_SHORT:
        s.refuses(5, calls.chmod(7, b"/f"), calls.stat(b"/"), b"", lengths=lengths)
    for event in (STATUS_0, Save(LONGEST), Save(0), Load(*s.last), Load(b"", b"")):
        s.expect("refused 5", event)


def read_only_114_before_34(s):
    s.take(house())
    s.expect("ask", calls.stat(b"/f"))
    for call in (*REFUSED, *TAKEN, b"", b"\x10", calls.mkdir(8, b"/a"), calls.remove(b"/" + LONG)):
        s.refuses(114, call)
    for lengths in TOO_SHORT:
        s.refuses(114, *REFUSED, b"", calls.create(7, b"/" + LONG), lengths=lengths)
    for event in (Save(LONGEST), Save(0), Load(*s.last), Load(b"", b"")):
        s.expect("refused 114", event)
    s.expect("done", Reply(s.truth))
    s.is_last()


def read_only_114_while_reading(s):
    """Between two pages, and while a file is opened, listed or closed."""
    s.take(small())
    s.expect("ask", calls.open_(1, b"/a/x"))
    s.refuses(114, *REFUSED)
    s.expect("done", Reply(s.truth))
    s.expect("ask", calls.read(3, PAGE + 1))
    s.refuses(114, *REFUSED)
    s.expect("ask", Reply(s.truth))
    s.refuses(114, *REFUSED)
    s.expect("done 1025", Reply(s.truth))
    for call in (calls.readdir(b"/a"), calls.close(3)):
        s.expect("ask", call)
        s.refuses(114, *REFUSED)
        s.expect("done", Reply(s.truth))
    s.refuses(30, *REFUSED)


def read_only_34_before_all_else(s):
    s.take(house())
    for lengths in TOO_SHORT:
        s.refuses(34, *REFUSED, *TAKEN, lengths=lengths)
        s.refuses(34, b"", b"\x10", calls.create(8, b"/a"), calls.open_(0, b"/f"), lengths=lengths)
        s.refuses(34, calls.write(2, bytes(MAX_COUNT + 1)), calls.map_(0), calls.unmap(0)[:-1], lengths=lengths)
        s.refuses(34, calls.chmod(7, b"/" + LONG), calls.stat(b"/" + LONG), calls.remove(b"/none"), lengths=lengths)
    s.expect("refused 34", Save(len(s.last[0]) - 1))
    s.is_last()


def read_only_longer_buffers(s):
    s.take(small())
    for lengths in LONGER:
        s.refuses(30, *REFUSED, lengths=lengths)
        s.refuses(22, calls.open_(4, b"/a/x"), b"\x10", lengths=lengths)
        s.refuses(36, calls.rmdir(b"/" + LONG), lengths=lengths)
        s.expect("ask 0d2f612f78", Call(calls.stat(b"/a/x"), *lengths))
        s.expect("done 1029", Reply(s.truth, *lengths))
        s.expect("ask", Call(calls.open_(1, b"/a/x"), *lengths))
        s.expect("done 3", Reply(s.truth, *lengths))
        s.expect("ask", Call(calls.read(3, 1), *lengths))
        s.expect("done 1 61", Reply(s.truth, *lengths))
        s.expect("ask", Call(calls.close(3), *lengths))
        s.expect("done 0", Reply(s.truth, *lengths))
    data, digest = s.last
    s.expect(f"done {len(data)} {data.hex()} {digest.hex()}", Save(LONGEST + 1))


def read_only_22_before_36_before_30(s):
    """By each kind that has a path; 30 comes last, where the path is right."""
    long, longest = b"/" + LONG, b"/n" * 127 + b"/n"
    for make in (
        lambda path: calls.create(7, path), lambda path: calls.mkdir(0, path), lambda path: calls.chmod(5, path),
        lambda path: calls.open_(2, path), lambda path: calls.open_(3, path), calls.remove, calls.rmdir,
    ):
        s.refuses(22, make(long + b"/"), make(long + b"/.."), make(b"n" + long), make(long + b"\0"))
        s.refuses(22, make(longest + b"/"))
        s.refuses(36, make(long), make(b"/none" + long), make(longest), make(b"/" + b"/".join([b"n" * MAX_NAME] * 8)))
        s.refuses(30, make(b"/" + LONG[1:]), make(longest[:-2]), make(b"/none/none"), make(b"/"))
    s.refuses(36, calls.open_(1, long), calls.readdir(long), calls.stat(longest))
    s.refuses(22, calls.open_(0, long), calls.open_(4, long), calls.create(8, long), calls.mkdir(9, longest))


def read_only_30_before_the_walk(s):
    """What the guard would refuse by its tables, each number beside 30."""
    s.take(house())
    handle = s.open(b"/f")
    of_20 = calls.create(7, b"/f/x"), calls.open_(2, b"/f/x"), calls.rmdir(b"/f"), calls.chmod(7, b"/f/x/y")
    of_13 = (
        calls.create(7, b"/shut/new"), calls.mkdir(7, b"/kept/new"), calls.open_(2, b"/mute"), calls.open_(3, b"/d/x"),
        calls.remove(b"/kept/x"), calls.rmdir(b"/kept/e"), calls.chmod(7, b"/shut/x"),
    )
    of_2 = calls.create(7, b"/none/x"), calls.open_(3, b"/none"), calls.remove(b"/none"), calls.chmod(7, b"/none")
    of_17 = calls.create(7, b"/"), calls.create(7, b"/f"), calls.mkdir(7, b"/d"), calls.mkdir(7, b"/f")
    of_21 = calls.open_(2, b"/"), calls.open_(3, b"/d"), calls.remove(b"/"), calls.remove(b"/d")
    of_16 = calls.open_(2, b"/f"), calls.open_(3, b"/f"), calls.remove(b"/f"), calls.rmdir(b"/")
    of_39 = calls.rmdir(b"/d"), calls.rmdir(b"/kept")
    of_9 = (
        calls.write(99, b"x"), calls.write(handle, b"x"), calls.truncate(99, 0), calls.truncate(handle, 0),
        calls.truncate(handle, len(TEXT)), calls.truncate(handle, MAX_SIZE + 1),
    )
    s.refuses(30, *of_20, *of_13, *of_2, *of_17, *of_21, *of_16, *of_39, *of_9, calls.unmap(UNIT))
    # the same numbers, where a call is taken
    s.refuses(20, calls.stat(b"/f/x"), calls.open_(1, b"/f/x"))
    s.refuses(13, calls.stat(b"/shut/x"), calls.open_(1, b"/mute"))
    s.refuses(2, calls.stat(b"/none"), calls.readdir(b"/none/x"), calls.open_(1, b"/none"))
    s.refuses(21, calls.open_(1, b"/d"))
    s.refuses(16, calls.open_(1, b"/f"))
    s.refuses(9, calls.seek(99, 0), calls.read(99, 0), calls.close(99))
    s.refuses(22, calls.seek(handle, len(TEXT) + 1))


def read_only_30_before_28(s):
    """No node and no page could be added."""
    s.take(trees(*files(*FULL, *[0] * (MAX_NODES - 1 - len(FULL)))))
    handle = s.open(b"/20")
    s.refuses(30, calls.create(7, b"/new"), calls.mkdir(7, b"/new"))
    s.refuses(30, calls.write(handle, b"x"), calls.truncate(handle, 1))
    s.refuses(30, calls.write(99, bytes(MAX_COUNT)), calls.truncate(handle, MAX_SIZE + 1))
    s.expect("refused 16", Save(LONGEST))
    s.expect_end("done 0", calls.close(handle))
    s.refuses(34, calls.create(7, b"/new"), lengths=(ANSWER, REQUEST - 1))


# saves and loads

def read_only_saves(s):
    """The image that was loaded, whatever was looked at since; 16 with a file open, 34 in less room."""
    s.take(small())
    s.is_last()
    handle = s.open(b"/a/x")
    for length in (0, LONGEST):
        s.expect("refused 16", Save(length))
    s.expect("refused 16", Load(*s.last))
    s.expect("refused 16", Load(b"", b""))
    s.expect_end("done 3", calls.read(handle, 3))
    s.expect_end("done 0", calls.close(handle))
    for length in (len(s.last[0]) - 1, 23, 0):
        s.expect("refused 34", Save(length))
    s.is_last()
    s.refuses(30, *REFUSED)
    s.is_last()
    s.expect("done", Save(LONGEST))


def read_only_loads(s):
    """One tree after another, and back; each save gives the last that was done."""
    one, other = small(), house()
    s.take(one)
    s.is_last()
    s.expect_end("done 2", calls.readdir(b"/a"))
    s.take(other)
    s.is_last()
    s.refuses(2, calls.stat(b"/a"))
    s.expect_end("done", calls.stat(b"/d/x"))
    s.take(one)
    s.refuses(2, calls.stat(b"/d/x"))
    handle = s.open(b"/a/y")
    s.expect_end("done 2 6363", calls.read(handle, 2))
    s.expect_end("done 0", calls.close(handle))
    s.is_last()
    s.expect("done 0", load_of(FRESH_IMAGE))
    s.expect(f"done 23 {FRESH_IMAGE.hex()}", Save(23))
    s.refuses(2, calls.stat(b"/a"))


def read_only_refused_loads(s):
    """They leave what was there."""
    s.take(small())
    data, digest = s.last
    for wrong in (digest[:-1], digest + b"\0", ZEROS, b""):
        s.expect("refused 74", Load(data, wrong))
    for other in (data[:-1], FRESH_IMAGE, b""):
        s.expect("refused 74", Load(other, digest))
    for unsound in (b"", data[:-1], data + b"\0", image(files(1), tail=b"\0"), image([root(), root()])):
        s.expect("refused 84", load_of(unsound))
        s.is_last()
    handle = s.open(b"/a/x")
    s.expect("refused 16", load_of(b""))
    s.expect("refused 16", load_of(FRESH_IMAGE))
    s.expect("ask", calls.read(handle, 1))
    s.expect("refused 114", load_of(FRESH_IMAGE))
    s.expect("done 1 61", Reply(s.truth))
    s.expect_end("done 0", calls.close(handle))
    s.is_last()


def read_only_modes_of_a_root(s):
    """A root that bars: what is taken is judged by it, what is not is not."""
    for mode, number in ((6, 13), (3, None), (0, 13)):
        nodes = [root(), Node(2, 1, FILE, 7, 0, b"a"), Node(3, 1, DIRECTORY, 7, 0, b"d")]
        nodes[0].mode = mode
        s.take(trees(*nodes))
        s.refuses(30, calls.create(7, b"/b"), calls.remove(b"/a"), calls.chmod(7, b"/"), calls.open_(2, b"/a"))
        if number:
            s.refuses(number, calls.stat(b"/a"), calls.open_(1, b"/a"), calls.readdir(b"/d"))
        else:
            s.expect_end("done 0", calls.stat(b"/a"))
        s.expect_end(f"done 0 0100000002{mode:02x}00000000", calls.stat(b"/"))
        s.is_last()


def read_only_short_replies(s):
    """A reply refused 34 may come again; one that nobody asked for is 61."""
    s.take(small())
    for call in (calls.open_(1, b"/a/x"), calls.read(3, 1), calls.readdir(b"/"), calls.stat(b"/e"), calls.close(3)):
        s.expect("ask", call)
        for lengths in TOO_SHORT:
            s.expect("refused 34", Reply(s.truth, *lengths))
            s.expect("refused 34", Reply(b"", *lengths))
        s.expect("done", Reply(s.truth))
        s.expect("refused 61", Reply(s.truth))
        s.refuses(30, calls.remove(b"/a/y"))
        s.expect("refused 61", Reply(s.truth))


SCRIPTS = [
    read_only_fresh, read_only_reads, read_only_shows, read_only_two_files, read_only_many_nodes, read_only_deep,
    read_only_32_files, read_only_refuses_each, read_only_rights, read_only_makes_nothing, read_only_removes_nothing,
    read_only_changes_no_file, read_only_maps_nothing, read_only_other_kinds, read_only_5_first,
    read_only_114_before_34, read_only_114_while_reading, read_only_34_before_all_else, read_only_longer_buffers,
    read_only_22_before_36_before_30, read_only_30_before_the_walk, read_only_30_before_28, read_only_saves,
    read_only_loads, read_only_refused_loads, read_only_modes_of_a_root, read_only_short_replies,
    read_only_renames_nothing, read_only_renamed_elsewhere,
]


# dishonest replies

def opening(s):
    s.take(small())
    s.open(b"/a/y")
    s.expect("ask", calls.open_(1, b"/a/x"))


def closing(s):
    s.take(small())
    s.expect("ask", calls.close(s.open(b"/a/x")))


def reading(s):
    s.take(small())
    s.expect("ask", calls.read(s.open(b"/a/x"), MAX_COUNT))


def reading_on(s):
    reading(s)
    s.expect("ask", Reply(s.truth))


def listing(s):
    s.take(small())
    s.expect("ask", calls.readdir(b"/a"))


def listing_nothing(s):
    s.take(small())
    s.expect("ask", calls.readdir(b"/e"))


def looking(s):
    s.take(small())
    s.expect("ask", calls.stat(b"/a/x"))


def looking_at_the_root(s):
    s.expect("ask", calls.stat(b"/"))


# what asks the host, and the stop reason of a reply that has the right length
QUESTIONS = {
    opening: 4, closing: 2, reading: 5, reading_on: 5, listing: 7, listing_nothing: 7, looking: 6,
    looking_at_the_root: 6,
}


def asked(script):
    s = ReadOnlyScript()
    script(s)
    return s


def dishonest_lists():
    """Pairs of a name and a script that has run: each wrong reply stops, a full disk among them."""
    for question, reason in QUESTIONS.items():
        lies = {**asked(question).lies(), "disk full": FULL_DISK}
        for name, lie in lies.items():
            s = asked(question)
            is_length = len(lie) != len(s.truth) and s.request[0] != READDIR
            s.expect(f"stopped {1 if is_length else reason}", Reply(lie))
            for event in (Call(CHANGES[len(name) % len(CHANGES)]), Call(calls.stat(b"/")), Save(LONGEST)):
                s.expect("refused 5", event)
            yield f"read-only, {question.__name__}: {name}", s


def scripted_lists():
    for script in SCRIPTS:
        yield script.__name__, asked(script)


def is_taken(data):
    """Whether a call of the right form is one that looks, by its bytes."""
    return data[0] in READ_ONLY_KINDS or data[:2] == bytes([OPEN, READ_RIGHT])

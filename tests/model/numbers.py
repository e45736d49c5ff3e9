"""Every number (SPECIFICATION 7.1): in its condition, and in the nearest case where it does not come.

`NUMBERS` has one script for each number, `NEIGHBOURS` one for each two that stand beside each other in an order, with
an event for which both conditions hold: the first comes. Where two conditions cannot both hold, the next is taken:
a stop ends the request, so 5 meets 61 and no 114; the root is a directory, so 16 meets 39 at rmdir and no 20.
"""

from . import calls
from .edges import EDGES, FULL, crowd, files, image
from .events import Call, Load, Reply, Save
from .image import LONGEST
from .rules import (
    ANSWER, MAX_COUNT, MAX_MAP, MAX_MAPS, MAX_NAME, MAX_NODES, MAX_OPEN, MAX_PATH, MAX_SIZE, PAGE, REQUEST, UNIT, put,
)
from .script import load_of

LONG = b"n" * (MAX_NAME + 1)
STATUS_0 = Reply(put(0, 4))
ROOT_IMAGE = image(files())


def n5_stopped(s):
    s.expect_end("done 0", calls.chmod(7, b"/"))
    s.expect("refused 61", STATUS_0)
    s.expect("done 23", Save(23))
    s.expect("done 0", load_of(ROOT_IMAGE))
    s.stop()
    for event in (Call(calls.chmod(7, b"/")), STATUS_0, Save(23), load_of(ROOT_IMAGE)):
        s.expect("refused 5", event)


def n114_busy(s):
    s.expect("ask", calls.chmod(7, b"/"))
    for event in (Call(calls.chmod(7, b"/")), Save(23), load_of(ROOT_IMAGE)):
        s.expect("refused 114", event)
    s.expect("done 0", STATUS_0)
    for event in (Save(23), load_of(ROOT_IMAGE)):
        s.expect("done", event)


def n61_unasked(s):
    s.expect("refused 61", STATUS_0)
    s.expect("ask", calls.chmod(7, b"/"))
    s.expect("done 0", STATUS_0)
    s.expect("refused 61", STATUS_0)


def n34_short(s):
    too_short = ((ANSWER - 1, REQUEST), (ANSWER, REQUEST - 1), (0, 0))
    for lengths in too_short:
        s.expect("refused 34", Call(calls.chmod(7, b"/"), *lengths))
    s.expect("ask", Call(calls.chmod(7, b"/"), ANSWER, REQUEST))
    for lengths in too_short:
        s.expect("refused 34", Reply(put(0, 4), *lengths))
    s.expect("done 0", Reply(put(0, 4), ANSWER, REQUEST))
    s.expect("refused 34", Save(22))
    s.expect("done 23", Save(23))


def n34_longer(s):
    """Every outcome in longer buffers; the longest listing, a store and the longest image are among them."""
    s.load(crowd(*FULL))
    for lengths in ((ANSWER + 1, REQUEST), (ANSWER, REQUEST + 1), (2 * ANSWER, 2 * REQUEST)):
        s.expect("refused 22", Call(b"", *lengths))
        s.expect("refused 61", Reply(b"", *lengths))
        s.expect("ask 0c2f", Call(calls.readdir(b"/"), *lengths))
        s.expect(f"done {MAX_NODES - 1} {s.truth.hex()}", Reply(s.truth, *lengths))
        s.do(calls.open_(3, b"/%032d" % 2))
        s.expect("done 1", Call(calls.seek(2, 1), *lengths))
        s.expect("ask", Call(calls.write(2, b"x"), *lengths))
        s.expect("ask", Reply(s.truth, *lengths))
        s.expect("done 1", Reply(s.truth, *lengths))
        s.do(calls.close(2))
    s.expect("refused 34", Save(LONGEST - 1))
    s.expect(f"done {LONGEST}", Save(LONGEST + 1))
    s.expect("ask", Call(calls.chmod(7, b"/"), 2 * ANSWER, 2 * REQUEST))
    s.expect("stopped 1", Reply(b"", 2 * ANSWER, 2 * REQUEST))
    s.expect("refused 5", Call(b"", 2 * ANSWER, 2 * REQUEST))


def n22_malformed_fields(s):
    s.house()
    handle = s.file(b"/g", b"12345")
    for wrong in (
        b"", b"\0/f", b"\x0e/f", b"\x10/f", b"\xff/f", b"\x01", b"\x01\x07", b"\x0d",
        calls.create(8, b"/a"), calls.mkdir(8, b"/a"), calls.chmod(8, b"/f"), calls.chmod(255, b"/f"),
        calls.open_(0, b"/f"), calls.open_(4, b"/f"), calls.open_(255, b"/f"),
        calls.close(handle)[:-1], calls.close(handle) + b"\0",
        calls.seek(handle, 0)[:-1], calls.seek(handle, 0) + b"\0",
        calls.read(handle, 0)[:-1], calls.read(handle, 0) + b"\0", calls.read(handle, MAX_COUNT + 1),
        calls.read(99, MAX_COUNT + 1),
        calls.write(handle, b"")[:-1], calls.write(handle, bytes(MAX_COUNT + 1)),
        calls.write(99, bytes(MAX_COUNT + 1)),
        calls.truncate(handle, 0)[:-1], calls.truncate(handle, 0) + b"\0",
    ):
        s.expect("refused 22", wrong)
    for right in (calls.read(handle, MAX_COUNT), calls.write(handle, b""), calls.seek(handle, 0)):
        s.expect("done 0", right)
    for right in (calls.create(7, b"/a"), calls.mkdir(0, b"/b"), calls.chmod(7, b"/f"), calls.open_(3, b"/f")):
        s.expect_end("done", right)
    s.expect_end(f"done {MAX_COUNT}", calls.write(handle, bytes(MAX_COUNT)))


def n22_malformed_paths(s):
    s.house()
    for path in (
        b"", b"f", b"f/", b"//", b"/d/", b"//d", b"/d//x", b"/.", b"/..", b"/d/.", b"/d/..", b"/./f", b"/../f",
        b"/f\0", b"/\0", b"/d\0/x",
    ):
        s.expect("refused 22", calls.stat(path))
    for path in (b"/", b"/f", b"/d/x"):
        s.expect_end("done", calls.stat(path))
    for path in (b"/...", b"/.a", b"/..a", b"/a.", b"/\xff", b"/d/\1"):
        s.expect_end("done", calls.create(7, path))


def n22_malformed_places(s):
    handle = s.file(b"/a", b"12345")
    for wrong in (6, 1 << 32, (1 << 32) + 5, (1 << 64) - 1):
        s.expect("refused 22", calls.seek(handle, wrong))
    s.expect("done 5", calls.seek(handle, 5))
    s.expect("done 0", calls.truncate(handle, 5))


def n22_malformed_maps(s):
    """A length is one to sixteen units in four bytes, an address has eight; behind them stand no calls yet."""
    for length in (
        0, 1, UNIT - 1, UNIT + 1, UNIT // 2, UNIT + UNIT // 2, 2 * UNIT - 1, MAX_MAP - 1, MAX_MAP + 1, MAX_MAP + UNIT,
        2 * MAX_MAP, (1 << 24) + UNIT, 1 << 31, (1 << 32) - UNIT, (1 << 32) - 1,
    ):
        s.expect("refused 22", calls.map_(length))
    for call in (calls.map_(UNIT), calls.unmap(UNIT)):
        for wrong in (call[:1], call[:2], call[:-1], call + b"\0", call + call[1:]):
            s.expect("refused 22", wrong)
    for length in (UNIT, 2 * UNIT):
        s.expect_end("done", calls.map_(length))
    for wrong in (calls.unmap(UNIT)[:-1], calls.unmap(UNIT) + b"\0", b"\x10", b"\x10" + put(UNIT, 4)):
        s.expect("refused 22", wrong)
    s.expect_end("done 0", calls.unmap(UNIT))


def n22_no_map(s):
    s.expect("refused 22", calls.unmap(UNIT))
    s.expect_end("done 4096", calls.map_(2 * UNIT))
    for address in (0, UNIT + 1, 2 * UNIT, 3 * UNIT, (1 << 32) + UNIT):
        s.expect("refused 22", calls.unmap(address))
    s.expect_end("done 0", calls.unmap(UNIT))
    s.expect("refused 22", calls.unmap(UNIT))


def n12_maps(s):
    """In the place of any of the sixteen there is room for one more, and for one alone."""
    for _ in range(MAX_MAPS):
        s.expect_end("done", calls.map_(UNIT))
    s.expect("refused 12", calls.map_(UNIT))
    s.expect("refused 12", calls.map_(MAX_MAP))
    for unit in (3, 1, MAX_MAPS):
        s.expect_end("done 0", calls.unmap(unit * UNIT))
        s.expect_end(f"done {unit * UNIT}", calls.map_(UNIT))
        s.expect("refused 12", calls.map_(UNIT))
    for unit in range(1, MAX_MAPS + 1):
        s.expect_end("done 0", calls.unmap(unit * UNIT))
    s.expect("refused 22", calls.unmap(UNIT))


def n36_long(s):
    s.expect("refused 36", calls.stat(b"/" + LONG))
    s.expect("refused 2", calls.stat(b"/" + LONG[1:]))
    components = b"/" + b"n" * 31
    s.expect("refused 36", calls.stat(components * 8))
    s.expect("refused 2", calls.stat((components * 8)[:-1]))


def n20_no_folder(s):
    s.house()
    for call in (calls.stat(b"/f/x"), calls.create(7, b"/f/x"), calls.rmdir(b"/f"), calls.readdir(b"/f")):
        s.expect("refused 20", call)
    for call in (calls.stat(b"/d/x"), calls.create(7, b"/d/y"), calls.readdir(b"/d"), calls.rmdir(b"/blind")):
        s.expect_end("done", call)


def n13_barred(s):
    s.house()
    for call in (
        calls.stat(b"/shut/x"), calls.create(7, b"/shut/y"), calls.create(7, b"/kept/y"), calls.mkdir(7, b"/kept/y"),
        calls.remove(b"/kept/x"), calls.rmdir(b"/kept/e"), calls.readdir(b"/blind"), calls.open_(1, b"/mute"),
    ):
        s.expect("refused 13", call)
    s.do(calls.chmod(1, b"/shut"))
    s.do(calls.chmod(3, b"/kept"))
    s.do(calls.chmod(4, b"/blind"))
    s.do(calls.chmod(4, b"/mute"))
    for call in (
        calls.stat(b"/shut/x"), calls.create(7, b"/kept/y"), calls.mkdir(7, b"/kept/z"), calls.remove(b"/kept/x"),
        calls.rmdir(b"/kept/e"), calls.readdir(b"/blind"), calls.open_(1, b"/mute"),
    ):
        s.expect_end("done", call)


def n13_barred_at_the_root(s):
    s.house()
    s.do(calls.chmod(6, b"/"))
    for call in (calls.stat(b"/f"), calls.create(7, b"/g"), calls.readdir(b"/d")):
        s.expect("refused 13", call)
    for call in (calls.stat(b"/"), calls.readdir(b"/"), calls.chmod(1, b"/")):
        s.expect_end("done", call)
    s.expect("refused 13", calls.readdir(b"/"))
    s.expect("refused 13", calls.create(7, b"/g"))
    s.expect_end("done", calls.stat(b"/f"))


def n13_every_mode_and_rights(s):
    """The 24 entries: read needs 4, write needs 2."""
    for mode in range(8):
        path = b"/%d" % mode
        s.do(calls.create(mode, path))
        for rights, needed in ((1, 4), (2, 2), (3, 6)):
            if mode & needed == needed:
                s.expect("ask", calls.open_(rights, path))
                s.do(calls.close(s.finish().number))
            else:
                s.expect("refused 13", calls.open_(rights, path))


def n2_absent(s):
    s.house()
    for call in (
        calls.stat(b"/g"), calls.stat(b"/g/x"), calls.create(7, b"/g/x"), calls.mkdir(7, b"/d/g/x"),
        calls.open_(1, b"/d/g"), calls.remove(b"/g"), calls.rmdir(b"/g"), calls.readdir(b"/g"), calls.chmod(7, b"/g"),
    ):
        s.expect("refused 2", call)
    for call in (calls.stat(b"/f"), calls.create(7, b"/g"), calls.mkdir(7, b"/d/g"), calls.open_(1, b"/d/x")):
        s.expect_end("done", call)


def n17_present(s):
    s.house()
    for path in (b"/", b"/f", b"/d", b"/d/x"):
        s.expect("refused 17", calls.create(7, path))
        s.expect("refused 17", calls.mkdir(7, path))
    s.expect_end("done", calls.create(7, b"/d/f"))
    s.expect_end("done", calls.mkdir(7, b"/x"))


def n21_folder(s):
    s.house()
    for path in (b"/", b"/d"):
        s.expect("refused 21", calls.open_(1, path))
        s.expect("refused 21", calls.remove(path))
    s.expect_end("done", calls.open_(1, b"/f"))
    s.expect_end("done 0", calls.remove(b"/d/x"))


def n16_in_use(s):
    handle = s.file(b"/a")
    for event in (calls.open_(1, b"/a"), calls.remove(b"/a"), calls.rmdir(b"/"), Save(100), load_of(ROOT_IMAGE)):
        s.expect("refused 16", event)
    s.expect_end("done 0", calls.chmod(0, b"/a"))
    s.expect_end("done 0", calls.close(handle))
    s.expect("done", Save(100))
    s.expect_end("done 0", calls.remove(b"/a"))
    s.expect("done 0", load_of(ROOT_IMAGE))
    s.do(calls.mkdir(7, b"/d"))
    s.expect_end("done 0", calls.rmdir(b"/d"))


def n39_not_empty(s):
    s.house()
    s.expect("refused 39", calls.rmdir(b"/d"))
    s.do(calls.remove(b"/d/x"))
    s.expect_end("done 0", calls.rmdir(b"/d"))


def n24_handles(s):
    s.load(files(*[0] * (MAX_OPEN + 1)))
    for node in s.guard.nodes[1 : MAX_OPEN + 1]:
        s.expect_end(f"done {node.id}", calls.open_(1, b"/" + node.name))
    s.expect("refused 24", calls.open_(1, b"/34"))
    s.do(calls.close(2))
    s.expect_end("done 34", calls.open_(1, b"/34"))


def n9_handle(s):
    s.house()
    reader, writer = s.file(b"/r", b"12345", rights=1), s.file(b"/w", b"12345", rights=2)
    closed = s.do(calls.stat(b"/f")).data[:4]
    for handle in (0, 1, 99, int.from_bytes(closed, "little")):
        for call in (
            calls.close(handle), calls.seek(handle, 0), calls.read(handle, 0), calls.write(handle, b""),
            calls.truncate(handle, 0),
        ):
            s.expect("refused 9", call)
    for call in (
        calls.read(writer, 0), calls.read(writer, 5), calls.write(reader, b""), calls.write(reader, b"x"),
        calls.truncate(reader, 5), calls.truncate(reader, 4),
    ):
        s.expect("refused 9", call)
    for call in (calls.seek(reader, 0), calls.seek(writer, 0), calls.read(reader, 0), calls.write(writer, b"")):
        s.expect("done 0", call)
    s.expect_end("done 5 3132333435", calls.read(reader, 9))
    s.expect_end("done 1", calls.write(writer, b"x"))
    s.expect_end("done 0", calls.truncate(writer, 4))
    for handle in (reader, writer):
        s.expect_end("done 0", calls.close(handle))
        s.expect("refused 9", calls.close(handle))


def n27_too_big(s):
    s.load(files(MAX_SIZE - 3))
    s.do(calls.open_(3, b"/2"))
    s.do(calls.seek(2, MAX_SIZE - 3))
    s.expect("refused 27", calls.write(2, b"1234"))
    s.expect_end("done 3", calls.write(2, b"123"))
    s.expect("refused 27", calls.write(2, b"1"))
    s.expect("done 0", calls.write(2, b""))


def n27_too_big_by_truncation(s):
    """The size has eight bytes: none is left out."""
    handle = s.file(b"/a", b"12345")
    too_big = (MAX_SIZE + 1, 1 << 32, (1 << 32) + 4, (1 << 32) + 5, (1 << 32) + 6, (1 << 63) + 5, (1 << 64) - 1)
    for size in too_big:
        s.expect("refused 27", calls.truncate(handle, size))
    s.expect_end("done 0", calls.truncate(handle, MAX_SIZE - 1))
    s.expect_end("done 0", calls.truncate(handle, MAX_SIZE))
    for size in too_big:
        s.expect("refused 27", calls.truncate(handle, size))
    s.expect("done 0", calls.truncate(handle, MAX_SIZE))
    s.expect(f"done {MAX_SIZE}", calls.seek(handle, MAX_SIZE))
    s.expect("refused 27", calls.write(handle, b"x"))


def n28_full_of_nodes(s):
    s.load(files(*[0] * 254))
    s.expect_end("done", calls.create(7, b"/a"))
    s.expect("refused 28", calls.create(7, b"/b"))
    s.expect("refused 28", calls.mkdir(7, b"/b"))
    s.do(calls.remove(b"/a"))
    s.expect_end("done", calls.mkdir(7, b"/b"))


def n28_full_of_pages(s):
    s.load(files(*FULL[1:], MAX_SIZE - PAGE, 0))
    for handle in (17, 18):
        s.do(calls.open_(2, b"/%d" % handle))
    s.do(calls.seek(17, MAX_SIZE - PAGE))
    s.expect("refused 28", calls.write(18, bytes(PAGE + 1)))
    s.expect_end(f"done {PAGE}", calls.write(18, bytes(PAGE)))
    s.expect("refused 28", calls.write(18, b"x"))
    s.expect("refused 28", calls.write(17, b"x"))
    s.do(calls.seek(17, MAX_SIZE - PAGE - 1))
    s.expect("refused 28", calls.write(17, b"xy"))
    s.expect_end("done 1", calls.write(17, b"x"))
    s.expect_end("done 0", calls.truncate(18, 0))
    s.expect_end("done 1", calls.write(17, b"x"))


def n28_full_of_pages_by_truncation(s):
    """The 1,024th page is taken, one more is not; within the pages that there are, a file still grows."""
    s.load(files(*FULL[1:], MAX_SIZE - PAGE, 0))
    for handle in (17, 18):
        s.do(calls.open_(2, b"/%d" % handle))
    s.expect("refused 28", calls.truncate(18, PAGE + 1))
    s.expect_end("done 0", calls.truncate(18, 1))
    for size in (PAGE + 1, MAX_SIZE):
        s.expect("refused 28", calls.truncate(18, size))
    s.expect("refused 28", calls.truncate(17, MAX_SIZE - PAGE + 1))
    s.expect_end("done 0", calls.truncate(18, PAGE))
    s.expect_end("done 0", calls.truncate(17, MAX_SIZE - 2 * PAGE))
    s.expect("refused 28", calls.truncate(18, 2 * PAGE + 1))
    s.expect_end("done 0", calls.truncate(18, 2 * PAGE))
    s.expect("refused 28", calls.truncate(17, MAX_SIZE - 2 * PAGE + 1))
    s.expect_end("done 0", calls.truncate(18, 0))
    s.expect_end("done 0", calls.truncate(17, MAX_SIZE))
    s.expect("refused 28", calls.truncate(18, 1))
    s.expect("refused 28", calls.write(18, b"x"))


def n74_seal(s):
    right = load_of(ROOT_IMAGE)
    for digest in (b"", right.digest[:-1], right.digest + b"\0", b"\0" + right.digest[1:], right.digest[::-1]):
        s.expect("refused 74", Load(ROOT_IMAGE, digest))
    s.expect("refused 74", Load(ROOT_IMAGE + b"\0", right.digest))
    s.expect("done 0", right)


def n84_image(s):
    for sound, broken in EDGES.values():
        s.expect("refused 84", load_of(broken))
        s.expect("done 0", load_of(sound))
    s.expect("done", Save(50_000))


NUMBERS = [function for name, function in list(globals().items()) if name.startswith("n") and name[1].isdigit()]


def both_5_and_61(s):
    s.stop()
    s.expect("refused 5", STATUS_0)


def both_5_and_34(s):
    s.stop()
    s.expect("refused 5", Call(calls.stat(b"/"), 0, 0))
    s.expect("refused 5", Reply(b"", 0, 0))


def both_5_and_16(s):
    s.file(b"/a")
    s.stop()
    s.expect("refused 5", Save(0))
    s.expect("refused 5", load_of(b""))


def both_114_and_34(s):
    s.expect("ask", calls.stat(b"/"))
    s.expect("refused 114", Call(calls.stat(b"/"), 0, 0))


def both_61_and_34(s):
    s.expect("refused 61", Reply(b"", 0, 0))


def both_34_and_22(s):
    s.expect("refused 34", Call(b"", 0, 0))


def both_34_and_a_stop(s):
    s.expect("ask", calls.stat(b"/"))
    s.expect("refused 34", Reply(b"", 0, 0))
    s.expect("done 0", Reply(s.truth))


def both_22_and_36(s):
    for call in (
        calls.create(8, b"/" + LONG), calls.open_(0, b"/" + LONG), calls.stat(LONG), calls.stat(b"/" + LONG + b"/"),
        calls.stat(b"/../" + LONG), calls.stat(b"/" + LONG + b"\0"), calls.stat(b"/" * (MAX_PATH + 1)),
        calls.stat(b"/a" * 127 + b"//"),
    ):
        s.expect("refused 22", call)


def both_36_and_the_walk(s):
    s.house()
    for start in (b"/f/", b"/shut/", b"/absent/", b"/absent/absent/"):
        s.expect("refused 36", calls.stat(start + LONG))
        s.expect("refused 36", calls.create(7, start + LONG))


def both_20_and_13_on_the_walk(s):
    s.house()
    s.expect("refused 20", calls.stat(b"/mute/x"))


def both_13_and_2(s):
    s.house()
    s.expect("refused 13", calls.stat(b"/shut/absent"))
    s.expect("refused 13", calls.stat(b"/shut/absent/x"))


def both_13_on_the_walk_and_17(s):
    s.house()
    s.expect("refused 13", calls.create(7, b"/shut/x"))


def both_17_and_13(s):
    s.house()
    s.expect("refused 17", calls.create(7, b"/kept/x"))
    s.expect("refused 17", calls.mkdir(7, b"/kept/e"))


def both_13_and_28(s):
    s.load(files(*[0] * (MAX_NODES - 1)))
    s.do(calls.chmod(5, b"/"))
    s.expect("refused 13", calls.create(7, b"/a"))
    s.expect("refused 17", calls.create(7, b"/2"))


def both_21_and_13_at_open(s):
    s.do(calls.mkdir(0, b"/d"))
    s.expect("refused 21", calls.open_(3, b"/d"))


def both_13_and_16_at_open(s):
    s.file(b"/a")
    s.do(calls.chmod(2, b"/a"))
    s.expect("refused 13", calls.open_(1, b"/a"))
    s.expect("refused 16", calls.open_(2, b"/a"))


def both_16_and_24(s):
    s.load(files(*[0] * MAX_OPEN))
    for node in s.guard.nodes[1:]:
        s.do(calls.open_(1, b"/" + node.name))
    s.expect("refused 16", calls.open_(1, b"/2"))


def both_21_and_13_at_remove(s):
    s.house()
    s.expect("refused 21", calls.remove(b"/kept/e"))


def both_13_and_16_at_remove(s):
    s.file(b"/a")
    s.do(calls.chmod(5, b"/"))
    s.expect("refused 13", calls.remove(b"/a"))
    s.do(calls.chmod(7, b"/"))
    s.expect("refused 16", calls.remove(b"/a"))


def both_16_and_39(s):
    s.house()
    s.expect("refused 16", calls.rmdir(b"/"))


def both_20_and_13_at_rmdir(s):
    s.house()
    s.expect("refused 20", calls.rmdir(b"/kept/x"))


def both_13_and_39(s):
    s.house()
    s.expect("refused 13", calls.rmdir(b"/kept/full"))


def both_20_and_13_at_readdir(s):
    s.house()
    s.expect("refused 20", calls.readdir(b"/mute"))


def both_9_and_22(s):
    reader = s.file(b"/a", b"12345", rights=1)
    s.expect("refused 9", calls.seek(99, 1 << 32))
    s.expect("refused 9", calls.truncate(reader, 6))  # which would be done with the right


def both_9_and_27(s):
    s.load(files(MAX_SIZE))
    s.do(calls.open_(1, b"/2"))
    s.do(calls.seek(2, MAX_SIZE))
    s.expect("refused 9", calls.write(2, b"x"))


def both_9_and_27_at_truncate(s):
    """Of a handle that lacks the right, of a file that is closed, of none."""
    s.load(files(5, 5))
    s.do(calls.open_(1, b"/2"))
    for handle in (2, 3, 99):
        for size in (MAX_SIZE + 1, (1 << 32) + 5, (1 << 64) - 1):
            s.expect("refused 9", calls.truncate(handle, size))


def both_9_and_28_at_truncate(s):
    s.load(files(*FULL[1:], MAX_SIZE, 0))
    s.do(calls.open_(1, b"/18"))
    s.expect("refused 9", calls.truncate(18, 1))
    s.expect("refused 9", calls.truncate(17, MAX_SIZE + 1))


def both_27_and_28(s):
    s.load(files(*FULL[1:], MAX_SIZE - 1, 0))
    s.do(calls.open_(2, b"/17"))
    s.do(calls.seek(17, MAX_SIZE - 1))
    s.expect("refused 27", calls.write(17, b"xy"))
    s.expect_end("done 1", calls.write(17, b"x"))


def both_27_and_28_at_truncate(s):
    s.load(files(*FULL[1:], MAX_SIZE - 1, 0))
    for handle in (17, 18):
        s.do(calls.open_(2, b"/%d" % handle))
        s.expect("refused 27", calls.truncate(handle, MAX_SIZE + 1))
        s.expect("refused 27", calls.truncate(handle, (1 << 64) - 1))
    s.expect("refused 28", calls.truncate(18, MAX_SIZE))
    s.expect_end("done 0", calls.truncate(17, MAX_SIZE))


def both_22_and_12(s):
    """And the numbers before them, while sixteen maps live."""
    for _ in range(MAX_MAPS):
        s.do(calls.map_(UNIT))
    for wrong in (calls.map_(0), calls.map_(UNIT + 1), calls.map_(MAX_MAP + UNIT), calls.map_(UNIT)[:-1]):
        s.expect("refused 22", wrong)
    s.expect("refused 12", calls.map_(UNIT))
    for call in (calls.map_(UNIT), calls.unmap(0)):
        s.expect("refused 34", Call(call, 0, 0))
    s.expect("ask", calls.unmap(UNIT))
    for call in (calls.map_(UNIT), calls.unmap(0)):
        s.expect("refused 114", call)
    s.expect("done 0", STATUS_0)
    s.expect_end("done 4096", calls.map_(UNIT))
    s.stop()
    for call in (calls.map_(UNIT), calls.unmap(0)):
        s.expect("refused 5", call)


def both_114_and_16(s):
    handle = s.file(b"/a")
    s.expect("ask", calls.close(handle))
    s.expect("refused 114", Save(0))
    s.expect("refused 114", load_of(b""))


def both_16_and_34(s):
    s.file(b"/a")
    s.expect("refused 16", Save(0))


def both_16_and_74(s):
    s.file(b"/a")
    s.expect("refused 16", Load(ROOT_IMAGE, b""))


def both_74_and_84(s):
    s.expect("refused 74", Load(b"", b""))
    s.expect("refused 74", Load(ROOT_IMAGE[:-1], load_of(ROOT_IMAGE).digest))


NEIGHBOURS = [function for name, function in list(globals().items()) if name.startswith("both_")]

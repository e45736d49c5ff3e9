"""The trials (SPECIFICATION 11.1), in their order."""

from . import calls
from .events import Reply
from .rules import MAX_COUNT, MAX_DESCRIPTOR, MAX_NAME, MAX_NODES, MAX_OPEN, MAX_SIZE, PAGE, put

DESK_INPUT = b"""\
c 01072f61
r 02000000
c 03012f61
r 00000000
c 060200000005000000
c 0402000000
r ffffffff
c 092f61
"""
DESK_OUTPUT = b"""\
ask 01072f61
done 2
ask 03012f61
done 2
done 0
ask 0400000000
stopped 2
refused 5
"""


def create_modes(s):
    s.expect("refused 22", calls.create(8, b"/a"), "create with mode 8")
    s.expect("ask 01072f61", calls.create(7, b"/a"), "create with mode 7")


def create_paths(s):
    s.expect("refused 17", calls.create(7, b"/"), "create of /")
    s.expect("refused 22", calls.create(7, b""), "create of an empty path")


def names(s):
    s.expect("refused 36", calls.create(7, b"/" + b"n" * (MAX_NAME + 1)), "a name of 33")
    s.expect_end("done", calls.create(7, b"/" + b"n" * MAX_NAME), "a name of 32")


def seek_to_the_size(s):
    handle = s.file(b"/a", b"12345")
    s.expect("refused 22", calls.seek(handle, 6), "seek beyond the size")
    s.expect("done 5", calls.seek(handle, 5), "seek to the size")


def read_counts(s):
    handle = s.file(b"/a", bytes(MAX_COUNT + 1))
    s.expect("done 0", calls.seek(handle, 0))
    s.expect("refused 22", calls.read(handle, MAX_COUNT + 1), "read of 4,097")
    s.expect_end(f"done {MAX_COUNT}", calls.read(handle, MAX_COUNT), "read of 4,096")


def largest_file(s):
    handle = s.file(b"/a", bytes(MAX_SIZE - 1))
    s.expect_end("done 1", calls.write(handle, b"x"), "write of the byte at 65,535")
    s.expect("refused 27", calls.write(handle, b"x"), "write of the next byte")


def create_answered_1(s):
    s.expect("ask", calls.create(7, b"/a"))
    s.expect("stopped 3", Reply(put(1, 4)), "create answered with id 1")


def descriptor_1023(s):
    s.do(calls.create(7, b"/a"))
    s.expect("ask", calls.open_(1, b"/a"))
    s.expect("done", Reply(put(MAX_DESCRIPTOR, 4)), "open answered with descriptor 1,023")


def descriptor_1024(s):
    s.do(calls.create(7, b"/a"))
    s.expect("ask", calls.open_(1, b"/a"))
    s.expect("stopped 4", Reply(put(MAX_DESCRIPTOR + 1, 4)), "open answered with descriptor 1,024")


def two_children(s):
    """The directory / with a file of id 2 and a directory of id 3; their entries."""
    s.expect("ask", calls.create(7, b"/a"))
    s.expect("done 2", Reply(put(2, 4)))
    s.expect("ask", calls.mkdir(7, b"/b"))
    s.expect("done 3", Reply(put(3, 4)))
    return bytes.fromhex("02000000010161"), bytes.fromhex("03000000020162")


def listed_either_way(s):
    a, b = two_children(s)
    for listing, way in ((a + b, "in order"), (b + a, "the other way round")):
        s.expect("ask", calls.readdir(b"/"))
        s.expect(f"done 2 {listing.hex()}", Reply(listing), f"two children listed {way}")


def listed_twice(s):
    a, _ = two_children(s)
    s.expect("ask", calls.readdir(b"/"))
    s.expect("stopped 7", Reply(a + a), "one child listed twice")


def page_of_1023(s):
    handle = s.file(b"/a", b"12345")
    s.do(calls.seek(handle, 0))
    s.expect("ask", calls.read(handle, 5))
    s.expect("stopped 1", Reply(b"12345".ljust(PAGE - 1, b"\0")), "a page of 1,023 bytes")


def opens(s):
    for i in range(MAX_OPEN + 1):
        s.do(calls.create(7, b"/%d" % i))
    for i in range(MAX_OPEN):
        s.expect_end("done", calls.open_(1, b"/%d" % i))
    s.show("32nd open")
    s.expect("refused 24", calls.open_(1, b"/%d" % MAX_OPEN), "33rd open")


def nodes(s):
    for i in range(MAX_NODES - 1):
        s.expect_end("done", calls.create(7, b"/%d" % i))
    s.show("256th node")
    s.expect("refused 28", calls.create(7, b"/%d" % (MAX_NODES - 1)), "257th node, a file")
    s.expect("refused 28", calls.mkdir(7, b"/%d" % (MAX_NODES - 1)), "257th node, a directory")


TRIALS = [
    create_modes, create_paths, names, seek_to_the_size, read_counts, largest_file, create_answered_1, descriptor_1023,
    descriptor_1024, listed_either_way, listed_twice, page_of_1023, opens, nodes,
]

"""Requests and right replies, written out by hand: which pages a call fetches and stores, in which order and with
which sizes, and what is left afterwards (SPECIFICATION 5)."""

from hashlib import sha256

from . import calls
from .edges import FULL, crowd
from .events import Load, Reply, Save
from .image import LONGEST
from .rules import ANSWER, MAX_COUNT, MAX_DESCRIPTOR, MAX_NODES, MAX_SIZE, PAGE, READ, TRUNCATE, WRITE, put

A, B, C = (bytes([byte]) * PAGE for byte in b"ABC")
ZEROS = bytes(PAGE)
STORED = put(PAGE, 4)
DONE = put(0, 4)
DESCRIPTOR = 7


def fetch(page):
    return "ask " + (bytes([READ]) + put(DESCRIPTOR, 4) + put(page, 4)).hex()


def store(page, size, data):
    fields = put(DESCRIPTOR, 4) + put(page, 4) + put(size, 4)
    return "ask " + (bytes([WRITE]) + fields + data.ljust(PAGE, b"\0")).hex()


def cut(size):
    return "ask " + (bytes([TRUNCATE]) + put(DESCRIPTOR, 4) + put(size, 4)).hex()


def opened(s, data=b""):
    """The file /a with id 2 and descriptor 7, filled and with its cursor at 0."""
    s.host.new_descriptor = lambda: DESCRIPTOR
    s.expect_end("done 2", calls.create(7, b"/a"))
    s.expect_end("done 2", calls.open_(3, b"/a"))
    s.do(calls.write(2, data))
    s.expect("done 0", calls.seek(2, 0))


def write_new(s):
    opened(s)
    s.expect(store(0, 3, b"abc"), calls.write(2, b"abc"))
    s.expect("done 3", Reply(STORED))
    s.expect(fetch(0), calls.write(2, b"de"))
    s.expect(store(0, 5, b"abcde"), Reply(b"abc".ljust(PAGE, b"\0")))
    s.expect("done 2", Reply(STORED))


def write_over_everything(s):
    """No byte below the old end is left, so nothing is fetched."""
    opened(s, b"abc")
    s.expect(store(0, 3, b"xyz"), calls.write(2, b"xyz"))
    s.expect("done 3", Reply(STORED))


def write_over_all_but_the_last(s):
    opened(s, b"abc")
    s.expect(fetch(0), calls.write(2, b"xy"))
    s.expect(store(0, 3, b"xyc"), Reply(b"abc".ljust(PAGE, b"\0")))
    s.expect("done 2", Reply(STORED))


def write_over_pages(s):
    """The first page is kept in part, the second overwritten, the third kept in part: fetched are the outer two."""
    opened(s, A + B + C[:10])
    s.expect(f"done {PAGE - 1}", calls.seek(2, PAGE - 1))
    s.expect(fetch(0), calls.write(2, b"x" * (PAGE + 2)))
    s.expect(store(0, 2 * PAGE + 10, A[:-1] + b"x"), Reply(A))
    s.expect(store(1, 2 * PAGE + 10, b"x" * PAGE), Reply(STORED))
    s.expect(fetch(2), Reply(STORED))
    s.expect(store(2, 2 * PAGE + 10, b"x" + C[1:10]), Reply(C[:10].ljust(PAGE, b"\0")))
    s.expect("done 1026", Reply(STORED))
    s.expect(fetch(2), calls.read(2, 100))
    s.expect(f"done 9 {C[:9].hex()}", Reply((b"x" + C[1:10]).ljust(PAGE, b"\0")))


def write_beyond_the_end(s):
    """The size sent grows with the bytes written so far."""
    opened(s, A[:1000])
    s.expect("done 1000", calls.seek(2, 1000))
    s.expect(fetch(0), calls.write(2, b"x" * 2000))
    s.expect(store(0, PAGE, A[:1000] + b"x" * 24), Reply(A[:1000].ljust(PAGE, b"\0")))
    s.expect(store(1, 2 * PAGE, b"x" * PAGE), Reply(STORED))
    s.expect(store(2, 3000, b"x" * 952), Reply(STORED))
    s.expect("done 2000", Reply(STORED))
    s.expect("ask 0d2f61", calls.stat(b"/a"))
    s.expect("done 3000 020000000107b80b0000", Reply(bytes.fromhex("020000000107b80b0000")))


def write_through_a_write_only_handle(s):
    handle = s.file(b"/a", b"abc", rights=2)
    s.expect("done 1", calls.seek(handle, 1))
    s.expect_end("done 1", calls.write(handle, b"x"))


def read_five_pages(s):
    opened(s, A + B + C + A)
    s.expect(f"done {4 * PAGE}", calls.seek(2, 4 * PAGE))
    s.expect(store(4, 4 * PAGE + 2, b"xy"), calls.write(2, b"xy"))
    s.expect("done 2", Reply(STORED))
    s.expect("done 1", calls.seek(2, 1))
    s.expect(fetch(0), calls.read(2, MAX_COUNT))
    for page, data in enumerate((A, B, C, A), start=1):
        s.expect(fetch(page), Reply(data))
    s.expect(f"done {MAX_COUNT} {(A[1:] + B + C + A).hex()}78", Reply(b"xy".ljust(PAGE, b"\0")))
    s.expect(fetch(4), calls.read(2, MAX_COUNT))
    s.expect("done 1 79", Reply(b"xy".ljust(PAGE, b"\0")))
    s.expect("done 0", calls.read(2, MAX_COUNT))


def truncate_inside_a_page(s):
    opened(s, A + B + C[:10])
    s.expect("done 2000", calls.seek(2, 2000))
    s.expect(fetch(1), calls.truncate(2, PAGE + 1))
    s.expect(store(1, 2 * PAGE + 10, b"B"), Reply(B))
    s.expect(cut(PAGE + 1), Reply(STORED))
    s.expect("done 0", Reply(DONE))
    s.expect("done 0", calls.read(2, 100))
    s.expect("refused 22", calls.seek(2, PAGE + 2))
    s.expect(f"done {PAGE}", calls.seek(2, PAGE))
    s.expect(fetch(1), calls.read(2, 100))
    s.expect("done 1 42", Reply(b"B".ljust(PAGE, b"\0")))


def truncate_on_an_edge(s):
    opened(s, A + B[:10])
    s.expect("done 10", calls.seek(2, 10))
    s.expect(cut(PAGE), calls.truncate(2, PAGE))
    s.expect("done 0", Reply(DONE))
    s.expect("done 0", calls.truncate(2, PAGE))
    s.expect(fetch(0), calls.read(2, 1))
    s.expect("done 1 41", Reply(A))
    s.expect(cut(0), calls.truncate(2, 0))
    s.expect("done 0", Reply(DONE))
    s.expect(store(0, 1, b"x"), calls.write(2, b"x"))


def grow(s):
    """One cut, wherever the old end lies; the cursor stays, and what is added is zero."""
    s.host.new_descriptor = lambda: DESCRIPTOR
    for old, new in (
        (0, 1), (3, 700), (700, 3000), (700, PAGE), (700, PAGE + 1), (PAGE, PAGE + 1), (0, PAGE), (5, MAX_SIZE),
    ):
        path = b"/%d-%d" % (old, new)
        handle = s.file(path, A[:old])
        s.expect(f"done {old // 2}", calls.seek(handle, old // 2))
        s.expect(cut(new), calls.truncate(handle, new))
        s.expect("done 0", Reply(DONE))
        there = A[:old].ljust(new, b"\0")[old // 2 :][:MAX_COUNT]
        s.expect_end(f"done {len(there)} {there.hex()}", calls.read(handle, MAX_COUNT))
        s.expect_end(f"done {new} {put(handle, 4).hex()}0107{put(new, 4).hex()}", calls.stat(path))
        s.expect("refused 22", calls.seek(handle, new + 1))
        s.expect(f"done {new}", calls.seek(handle, new))
        s.do(calls.close(handle))


def grow_over_pages(s):
    """A read over the old end: the last old page as it was, then zeros."""
    opened(s, A[:700])
    s.expect("done 690", calls.seek(2, 690))
    s.expect(cut(3000), calls.truncate(2, 3000))
    s.expect("done 0", Reply(DONE))
    s.expect(fetch(0), calls.read(2, MAX_COUNT))
    s.expect(fetch(1), Reply(A[:700].ljust(PAGE, b"\0")))
    s.expect(fetch(2), Reply(ZEROS))
    s.expect(f"done 2310 {A[:10].ljust(2310, bytes(1)).hex()}", Reply(ZEROS))
    s.expect("done 0", calls.read(2, 1))


def write_what_was_added(s):
    """Added bytes are bytes below the old end: a page is fetched where one of them stays."""
    opened(s, b"abc")
    s.do(calls.truncate(2, 3000))
    s.expect(f"done {PAGE + 1}", calls.seek(2, PAGE + 1))
    s.expect(fetch(1), calls.write(2, b"x"))
    s.expect(store(1, 3000, b"\0x"), Reply(ZEROS))
    s.expect("done 1", Reply(STORED))
    s.expect(f"done {2 * PAGE}", calls.seek(2, 2 * PAGE))
    s.expect(store(2, 3000, C[:952]), calls.write(2, C[:952]))
    s.expect("done 952", Reply(STORED))
    s.expect("done 3", calls.seek(2, 3))
    s.expect(fetch(0), calls.write(2, b"d"))
    s.expect(store(0, 3000, b"abcd"), Reply(b"abc".ljust(PAGE, b"\0")))
    s.expect("done 1", Reply(STORED))
    s.expect("done 0", calls.seek(2, 0))
    there = b"abcd".ljust(PAGE, b"\0") + b"\0x".ljust(PAGE, b"\0") + C[:952]
    s.expect_end(f"done 3000 {there.hex()}", calls.read(2, MAX_COUNT))


def cut_and_grow(s):
    """What was cut off does not come back."""
    opened(s, A + B + C[:10])
    s.expect("done 700", calls.seek(2, 700))
    s.expect(fetch(1), calls.truncate(2, PAGE + 1))
    s.expect(store(1, 2 * PAGE + 10, b"B"), Reply(B))
    s.expect(cut(PAGE + 1), Reply(STORED))
    s.expect("done 0", Reply(DONE))
    s.expect(cut(2 * PAGE + 10), calls.truncate(2, 2 * PAGE + 10))
    s.expect("done 0", Reply(DONE))
    s.expect(fetch(0), calls.read(2, MAX_COUNT))
    s.expect(fetch(1), Reply(A))
    s.expect(fetch(2), Reply(b"B".ljust(PAGE, b"\0")))
    s.expect(f"done 1358 {(A[700:] + b'B').ljust(1358, bytes(1)).hex()}", Reply(ZEROS))
    s.expect(cut(0), calls.truncate(2, 0))
    s.expect("done 0", Reply(DONE))
    s.expect(cut(PAGE), calls.truncate(2, PAGE))
    s.expect("done 0", Reply(DONE))
    s.expect(fetch(0), calls.read(2, 2))
    s.expect("done 2 0000", Reply(ZEROS))


def cut_what_was_added(s):
    """Within an added page: it is fetched and stored, zeros as it is, and then cut."""
    opened(s, A[:10])
    s.do(calls.truncate(2, 3 * PAGE))
    s.expect(f"done {3 * PAGE}", calls.seek(2, 3 * PAGE))
    s.expect(fetch(1), calls.truncate(2, PAGE + 100))
    s.expect(store(1, 3 * PAGE, b""), Reply(ZEROS))
    s.expect(cut(PAGE + 100), Reply(STORED))
    s.expect("done 0", Reply(DONE))
    s.expect(fetch(1), calls.write(2, b"xyz"))
    s.expect(store(1, PAGE + 103, bytes(100) + b"xyz"), Reply(ZEROS))
    s.expect("done 3", Reply(STORED))
    s.expect(cut(PAGE), calls.truncate(2, PAGE))
    s.expect("done 0", Reply(DONE))
    s.expect(fetch(0), calls.truncate(2, 5))


def grow_again_and_again(s):
    """Through a handle without the right to read, whose cursor stays at 3 throughout."""
    s.host.new_descriptor = lambda: DESCRIPTOR
    handle = s.file(b"/a", b"abc", rights=2)
    for size in (4, 700, 701, PAGE - 1, PAGE, PAGE + 1, 2 * PAGE, 3000, MAX_SIZE - 1, MAX_SIZE):
        s.expect(cut(size), calls.truncate(handle, size))
        s.expect("done 0", Reply(DONE))
        s.expect("done 0", calls.truncate(handle, size))
    s.expect(fetch(0), calls.write(handle, b"d"))
    s.expect(store(0, MAX_SIZE, b"abcd"), Reply(b"abc".ljust(PAGE, b"\0")))
    s.expect("done 1", Reply(STORED))


def grow_with_an_old_id(s):
    """The pages of a file that is gone do not come back in the next one with its id."""
    opened(s, A + B[:10])
    s.do(calls.close(2))
    s.do(calls.remove(b"/a"))
    opened(s)
    s.expect(cut(PAGE + 10), calls.truncate(2, PAGE + 10))
    s.expect("done 0", Reply(DONE))
    s.expect(fetch(0), calls.read(2, MAX_COUNT))
    s.expect(fetch(1), Reply(ZEROS))
    s.expect(f"done {PAGE + 10} {bytes(PAGE + 10).hex()}", Reply(ZEROS))


def grow_save_and_load(s):
    """Each added page has the digest of zeros in the image, the last old page its own; a load goes back to that."""
    opened(s, A[:700])
    s.do(calls.truncate(2, 3000))
    s.expect_end("done 3000 020000000107b80b0000", calls.stat(b"/a"))
    s.do(calls.close(2))
    saved = s.send(Save(1000))
    digests = [sha256(page).digest() for page in (A[:700].ljust(PAGE, b"\0"), ZEROS, ZEROS)]
    assert saved.data.endswith(put(3, 4) + b"".join(digests))
    s.do(calls.open_(3, b"/a"))
    s.do(calls.truncate(2, 100))
    s.do(calls.truncate(2, MAX_SIZE))
    s.do(calls.close(2))
    s.expect("done 0", Load(saved.data, saved.digest))
    s.expect_end("done 3000 020000000107b80b0000", calls.stat(b"/a"))
    s.do(calls.open_(3, b"/a"))
    s.expect_end(f"done 3000 {A[:700].ljust(3000, bytes(1)).hex()}", calls.read(2, MAX_COUNT))
    s.expect(cut(3001), calls.truncate(2, 3001))
    s.expect("done 0", Reply(DONE))


def nothing_sent(s):
    opened(s, b"abc")
    for call in (calls.read(2, 0), calls.write(2, b""), calls.truncate(2, 3), calls.seek(2, 0)):
        s.expect("done 0", call)
    s.expect("done 3", calls.seek(2, 3))
    s.expect("done 0", calls.read(2, 5))


def ids(s):
    """Every id but 0 and those held is good, also that of a removed node."""
    for id in (2, 0xFFFF_FFFF, 0xFFFF_FFE5, 0x8000_0000):
        s.expect("ask", calls.mkdir(7, b"/%d" % id))
        s.expect(f"done {id}", Reply(put(id, 4)))
    s.expect_end("done 0", calls.rmdir(b"/4294967295"))
    s.expect("ask", calls.create(7, b"/a"))
    s.expect("done 4294967295", Reply(put(0xFFFF_FFFF, 4)))
    s.expect("ask", calls.open_(3, b"/a"))
    s.expect("done 4294967295", Reply(put(0, 4)))
    s.expect("ask 0400000000", calls.close(0xFFFF_FFFF))


def descriptors(s):
    """Every descriptor from 0 to 1,023 is good, also that of a closed file."""
    for name in (b"/a", b"/b"):
        s.do(calls.create(7, name))
    for name, handle, descriptor in ((b"/a", 2, MAX_DESCRIPTOR), (b"/b", 3, 0)):
        s.host.new_descriptor = lambda: descriptor
        s.expect_end(f"done {handle}", calls.open_(1, name))
    s.expect("ask 04ff030000", calls.close(2))
    s.expect("done 0", Reply(DONE))
    s.expect("ask", calls.open_(1, b"/a"))
    s.expect("done 2", Reply(put(MAX_DESCRIPTOR, 4)))


def listings(s):
    s.expect("ask 0c2f", calls.readdir(b"/"))
    s.expect("done 0", Reply(b""))
    s.do(calls.mkdir(7, b"/d"))
    s.expect("ask", calls.readdir(b"/d"))
    s.expect("done 0", Reply(b""))
    s.expect("ask", calls.stat(b"/d"))
    s.expect("done 0 " + s.truth.hex(), Reply(s.truth))


def longest_listing(s):
    s.load(crowd())
    s.expect("ask", calls.readdir(b"/"))
    assert len(s.truth) == ANSWER
    s.expect(f"done {MAX_NODES - 1}", Reply(s.truth))


def rights_outlive_chmod(s):
    handle = s.file(b"/a", b"abc")
    s.expect_end("done 0", calls.chmod(0, b"/a"))
    s.expect("done 0", calls.seek(handle, 0))
    s.expect_end("done 3 616263", calls.read(handle, 3))
    s.expect_end("done 1", calls.write(handle, b"d"))


def saves_and_loads(s):
    """A load goes back to the nodes, modes and pages of its save."""
    handle = s.file(b"/a", A + b"x")
    s.do(calls.close(handle))
    first = s.send(Save(1000))
    s.do(calls.open_(2, b"/a"))
    s.do(calls.write(handle, b"y"))
    s.do(calls.close(handle))
    s.do(calls.chmod(4, b"/a"))
    second = s.send(Save(1000))
    for saved, data, mode in ((first, A, 7), (second, b"y" + A[1:], 4)):
        s.expect("done 0", Load(saved.data, saved.digest))
        s.expect_end(f"done {PAGE + 1} {put(handle, 4).hex()}010{mode}{put(PAGE + 1, 4).hex()}", calls.stat(b"/a"))
        s.do(calls.open_(1, b"/a"))
        s.expect_end(f"done {PAGE} {data.hex()}", calls.read(handle, PAGE))
        s.do(calls.close(handle))


def longest_image(s):
    s.load(crowd(*FULL))
    s.expect("refused 34", Save(LONGEST - 1))
    s.expect(f"done {LONGEST}", Save(LONGEST))


PAGES = [
    write_new, write_over_everything, write_over_all_but_the_last, write_over_pages, write_beyond_the_end,
    write_through_a_write_only_handle, read_five_pages, truncate_inside_a_page, truncate_on_an_edge, nothing_sent, ids,
    descriptors, listings, longest_listing, rights_outlive_chmod, saves_and_loads, longest_image, grow, grow_over_pages,
    write_what_was_added, cut_and_grow, cut_what_was_added, grow_again_and_again, grow_with_an_old_id,
    grow_save_and_load,
]

"""A full disk, written out by hand: which requests may find it, what ends then and what stays, and where saying so is
a wrong reply as any other."""

from hashlib import sha256

from . import calls, dishonest
from .edges import FULL, files
from .events import Load, Reply, Save
from .pages import A, B, C, DONE, STORED, cut, fetch, opened, store
from .recording import FULL_DISK
from .rules import (
    ANSWER, CREATE, DIRECTORY, FILE, MAX_COUNT, MAX_NODES, MAX_SIZE, MKDIR, NO_SPACE, PAGE, READDIR, REQUEST, Node, put,
    unsigned,
)

TAKEN = unsigned(FULL_DISK)  # as an id: a load may bring it, no host may give it
WIDTHS = (1, 2, 3, 5, 8)
IS_FULL = Reply(FULL_DISK)


def padded(data):
    return data.ljust(PAGE, b"\0")


def full(s, answer):
    """The pending request finds the disk full; nothing is pending behind that."""
    s.expect(answer, IS_FULL)
    for data in (FULL_DISK, STORED, DONE):
        s.expect("refused 61", Reply(data))


def has(s, path, handle, data, cursor):
    """A file's size, what is behind its cursor, and all its bytes; the cursor then stands at the end."""
    s.expect_end(f"done {len(data)} {put(handle, 4).hex()}0107{put(len(data), 4).hex()}", calls.stat(path))
    gives(s, handle, data[cursor:])
    s.expect("done 0", calls.seek(handle, 0))
    gives(s, handle, data)


def gives(s, handle, data):
    """A read of the rest."""
    expect = s.expect_end if data else s.expect
    expect(f"done {len(data)} {data.hex()}".strip(), calls.read(handle, MAX_COUNT))


# new nodes

def full_create(s):
    s.expect("ask 01072f61", calls.create(7, b"/a"))
    full(s, "refused 28")
    for call in (calls.stat(b"/a"), calls.open_(1, b"/a"), calls.remove(b"/a")):
        s.expect("refused 2", call)
    s.expect("ask 0c2f", calls.readdir(b"/"))
    s.expect("done 0", Reply(b""))
    s.expect("ask 01072f61", calls.create(7, b"/a"))
    s.expect("done 2", Reply(put(2, 4)))


def full_mkdir(s):
    s.expect_end("done 2", calls.mkdir(7, b"/d"))
    s.expect("ask 02052f642f65", calls.mkdir(5, b"/d/e"))
    full(s, "refused 28")
    s.expect("refused 2", calls.create(7, b"/d/e/f"))
    s.expect("ask 0c2f64", calls.readdir(b"/d"))
    s.expect("done 0", Reply(b""))
    s.expect("ask 02052f642f65", calls.mkdir(5, b"/d/e"))
    s.expect("done 3", Reply(put(3, 4)))
    s.expect_end("done 1 03000000020165", calls.readdir(b"/d"))


def full_again_and_again(s):
    """A file in the place of a directory, a directory in that of a file; the image is the fresh guard's."""
    fresh = s.send(Save(100))
    for make in (calls.create, calls.mkdir, calls.create, calls.create, calls.mkdir):
        s.expect("ask", make(7, b"/a"))
        full(s, "refused 28")
        s.expect(f"done 23 {fresh.data.hex()} {fresh.digest.hex()}", Save(23))


def full_before_the_last_node(s):
    """A node that was not made takes no place: the 256th still has one."""
    s.load(files(*[0] * (MAX_NODES - 2)))
    for make in (calls.create, calls.mkdir):
        s.expect("ask", make(7, b"/a"))
        full(s, "refused 28")
    s.expect_end(f"done {MAX_NODES}", calls.create(7, b"/a"))
    s.expect("refused 28", calls.create(7, b"/b"))
    s.expect("refused 61", IS_FULL)


def full_beside_that_id(s):
    """A node that a load brought has the same four bytes as its id: they are looked at as a status first."""
    s.load([*files(3), Node(TAKEN, 1, FILE, 7, 5, b"full")])
    for make in (calls.create, calls.mkdir):
        s.expect("ask", make(7, b"/a"))
        full(s, "refused 28")
    s.expect_end("done 5 e4ffffff010705000000", calls.stat(b"/full"))
    s.expect_end("done 2 02000000010132e4ffffff010466756c6c", calls.readdir(b"/"))
    s.expect_end(f"done {TAKEN}", calls.open_(3, b"/full"))
    s.expect_end("done 5 0000000000", calls.read(TAKEN, 9))
    s.expect_end("done 3", calls.write(TAKEN, b"abc"))
    s.expect("done 0", calls.seek(TAKEN, 0))
    s.expect_end("done 8 0000000000616263", calls.read(TAKEN, 9))
    s.expect_end("done 0", calls.close(TAKEN))
    saved = s.send(Save(1000))
    assert FULL_DISK in saved.data
    s.expect_end("done 0", calls.remove(b"/full"))
    s.expect("ask", calls.create(7, b"/a"))
    full(s, "refused 28")
    s.expect("done 0", Load(saved.data, saved.digest))
    s.expect_end("done 8 e4ffffff010708000000", calls.stat(b"/full"))


def full_within_that_id(s):
    """The same of a directory, which goes on holding children."""
    s.load([*files(3), Node(TAKEN, 1, DIRECTORY, 7, 0, b"full")])
    s.expect("ask", calls.mkdir(7, b"/full/d"))
    full(s, "refused 28")
    s.expect_end("done 3", calls.create(7, b"/full/a"))
    s.expect_end("done 1 03000000010161", calls.readdir(b"/full"))
    s.expect("refused 39", calls.rmdir(b"/full"))
    s.expect_end("done 0", calls.remove(b"/full/a"))
    s.expect_end("done 0", calls.rmdir(b"/full"))


def full_neighbours_as_ids(s):
    """-27 and -29 are ids as before, and so is -28 with its bytes in another order."""
    for id in (0xFFFF_FFE5, 0xFFFF_FFE3, 0x7FFF_FFE4, 0xFFFF_FFFF, 0xE4FF_FFFF, 28, 0xE4):
        s.expect("ask", calls.create(7, b"/%d" % id))
        s.expect(f"done {id}", Reply(put(id, 4)))


# writes

def full_first_page(s):
    """Nothing is finished: nothing has changed, and the same write goes through later."""
    opened(s)
    for _ in range(2):
        s.expect(store(0, PAGE, A), calls.write(2, A + B))
        full(s, "refused 28")
        has(s, b"/a", 2, b"", cursor=0)
    s.expect(store(0, PAGE, A), calls.write(2, A + B))
    s.expect(store(1, 2 * PAGE, B), Reply(STORED))
    s.expect(f"done {2 * PAGE}", Reply(STORED))
    has(s, b"/a", 2, A + B, cursor=2 * PAGE)


def full_second_page(s):
    opened(s)
    s.expect(store(0, PAGE, A), calls.write(2, A + B + C[:452]))
    s.expect(store(1, 2 * PAGE, B), Reply(STORED))
    full(s, "done 1024")
    has(s, b"/a", 2, A, cursor=PAGE)
    s.expect(store(1, 2 * PAGE, B), calls.write(2, B + C[:452]))
    s.expect(store(2, 2500, C[:452]), Reply(STORED))
    s.expect("done 1476", Reply(STORED))
    has(s, b"/a", 2, A + B + C[:452], cursor=2500)


def full_last_page(s):
    opened(s)
    s.expect(store(0, PAGE, A), calls.write(2, A + B + C[:452]))
    s.expect(store(1, 2 * PAGE, B), Reply(STORED))
    s.expect(store(2, 2500, C[:452]), Reply(STORED))
    full(s, "done 2048")
    has(s, b"/a", 2, A + B, cursor=2 * PAGE)
    s.expect("refused 22", calls.seek(2, 2 * PAGE + 1))


def full_fifth_page(s):
    """The longest write, from within a page: four pages are finished, the first in part."""
    opened(s, A[:1000])
    s.expect("done 1000", calls.seek(2, 1000))
    data = b"x" * 24 + B + C + A + b"y" * 1000
    s.expect(fetch(0), calls.write(2, data))
    s.expect(store(0, PAGE, A[:1000] + b"x" * 24), Reply(padded(A[:1000])))
    for page, there in enumerate((B, C, A), start=1):
        s.expect(store(page, (page + 1) * PAGE, there), Reply(STORED))
    s.expect(store(4, 4 * PAGE + 1000, b"y" * 1000), Reply(STORED))
    full(s, "done 3096")
    has(s, b"/a", 2, A[:1000] + b"x" * 24 + B + C + A, cursor=4 * PAGE)


def full_within_a_page(s):
    """The bytes of the first page are counted from the cursor."""
    opened(s, A[:1000])
    s.expect("done 1000", calls.seek(2, 1000))
    s.expect(fetch(0), calls.write(2, b"x" * 2000))
    s.expect(store(0, PAGE, A[:1000] + b"x" * 24), Reply(padded(A[:1000])))
    s.expect(store(1, 2 * PAGE, b"x" * PAGE), Reply(STORED))
    full(s, "done 24")
    has(s, b"/a", 2, A[:1000] + b"x" * 24, cursor=PAGE)


def full_after_the_last_byte_of_a_page(s):
    """One byte is done: the write began at the last of its first page."""
    opened(s, A + B)
    s.expect("done 1023", calls.seek(2, PAGE - 1))
    s.expect(fetch(0), calls.write(2, b"xy"))
    s.expect(store(0, 2 * PAGE, A[:-1] + b"x"), Reply(A))
    s.expect(fetch(1), Reply(STORED))
    s.expect(store(1, 2 * PAGE, b"y" + B[1:]), Reply(B))
    full(s, "done 1")
    has(s, b"/a", 2, A[:-1] + b"x" + B, cursor=PAGE)


def full_after_a_fetch(s):
    """A page that is only fetched is not finished."""
    opened(s, b"abc")
    s.expect("done 1", calls.seek(2, 1))
    s.expect(fetch(0), calls.write(2, b"xyz"))
    s.expect(store(0, 4, b"axyz"), Reply(padded(b"abc")))
    full(s, "refused 28")
    has(s, b"/a", 2, b"abc", cursor=1)


def full_after_a_later_fetch(s):
    """The page behind is fetched, and stays as it was."""
    opened(s, A + B + C)
    s.expect(store(0, 3 * PAGE, b"x" * PAGE), calls.write(2, b"x" * (PAGE + 10)))
    s.expect(fetch(1), Reply(STORED))
    s.expect(store(1, 3 * PAGE, b"x" * 10 + B[10:]), Reply(B))
    full(s, "done 1024")
    has(s, b"/a", 2, b"x" * PAGE + B + C, cursor=PAGE)


def full_over_what_is_there(s):
    """Nothing would grow, and still the disk may be full: the size stays, what is finished is new."""
    opened(s, A + B + C)
    s.expect(store(0, 3 * PAGE, C), calls.write(2, C))
    full(s, "refused 28")
    has(s, b"/a", 2, A + B + C, cursor=0)
    s.expect("done 0", calls.seek(2, 0))
    s.expect(store(0, 3 * PAGE, B), calls.write(2, B + C + A))
    s.expect(store(1, 3 * PAGE, C), Reply(STORED))
    s.expect(store(2, 3 * PAGE, A), Reply(STORED))
    full(s, "done 2048")
    has(s, b"/a", 2, B + C + C, cursor=2 * PAGE)


def full_across_the_old_end(s):
    """The size follows the finished pages, between the old one and the one that was asked for."""
    opened(s, A + B[:10])
    s.expect(f"done {PAGE}", calls.seek(2, PAGE))
    s.expect(store(1, 2 * PAGE, C), calls.write(2, C + A + B))
    s.expect(store(2, 3 * PAGE, A), Reply(STORED))
    s.expect(store(3, 4 * PAGE, B), Reply(STORED))
    full(s, "done 2048")
    has(s, b"/a", 2, A + C + A, cursor=3 * PAGE)


def full_beside_another_file(s):
    """The other file's pages, which stand behind, stay its own; its cursor too."""
    first, second = s.file(b"/a", A), s.file(b"/b", C + B[:7])
    s.do(calls.seek(second, 5))
    s.do(calls.seek(first, 0))
    s.expect("ask", calls.write(first, B + A + C))
    s.expect("ask", Reply(STORED))
    s.expect("ask", Reply(STORED))
    full(s, "done 2048")
    has(s, b"/b", second, C + B[:7], cursor=5)
    has(s, b"/a", first, B + A, cursor=2 * PAGE)


def full_without_the_right_to_read(s):
    handle = s.file(b"/a", b"abc", rights=2)
    s.expect("ask", calls.write(handle, A + B))
    s.expect("ask", Reply(s.truth))
    full(s, "refused 28")
    s.expect("ask", calls.write(handle, A + B))
    s.expect("ask", Reply(s.truth))
    s.expect("ask", Reply(STORED))
    full(s, "done 1021")
    s.expect_end("done 1024 02000000010700040000", calls.stat(b"/a"))


def full_pages_are_free(s):
    """Of 1,024 pages four are left: a write of four that ends at its third leaves two."""
    s.load(files(*FULL[1:], MAX_SIZE - 4 * PAGE, 0))
    handle = 1 + len(FULL) + 1
    s.do(calls.open_(3, b"/%d" % handle))
    s.expect("ask", calls.write(handle, bytes(4 * PAGE)))
    full(s, "refused 28")
    s.expect("ask", calls.write(handle, bytes(4 * PAGE)))
    s.expect("ask", Reply(STORED))
    s.expect("ask", Reply(STORED))
    full(s, "done 2048")
    s.expect("refused 28", calls.write(handle, bytes(2 * PAGE + 1)))
    s.expect_end("done 2048", calls.write(handle, bytes(2 * PAGE)))
    s.expect("refused 28", calls.write(handle, b"x"))


def full_at_the_largest_file(s):
    handle = s.file(b"/a", bytes(MAX_SIZE - PAGE - 10))
    s.expect("ask", calls.write(handle, bytes(PAGE + 10)))
    s.expect("ask", Reply(s.truth))
    s.expect("ask", Reply(STORED))
    full(s, "done 10")
    s.expect("refused 27", calls.write(handle, bytes(PAGE + 1)))
    s.expect_end("done 1024", calls.write(handle, bytes(PAGE)))


def full_save_and_load(s):
    """The image has the digests of the finished pages alone; a load goes back to them."""
    opened(s, A + A)
    s.expect("ask", calls.write(2, B + C + B))
    s.expect("ask", Reply(STORED))
    full(s, "done 1024")
    s.do(calls.close(2))
    saved = s.send(Save(1000))
    digests = [sha256(page).digest() for page in (B, A)]
    assert saved.data.endswith(put(2, 4) + b"".join(digests))
    s.do(calls.open_(3, b"/a"))
    s.expect("ask", calls.write(2, C + C + C))
    s.expect("ask", Reply(STORED))
    s.expect("ask", Reply(STORED))
    full(s, "done 2048")
    s.do(calls.close(2))
    s.expect("done 0", Load(saved.data, saved.digest))
    s.do(calls.open_(3, b"/a"))
    has(s, b"/a", 2, B + A, cursor=0)


# growth

def full_growth(s):
    """Within the last page, to its end, by pages: size, cursor and bytes stay, and the next one may go through."""
    opened(s, A[:700])
    s.expect("done 300", calls.seek(2, 300))
    for size in (701, PAGE, PAGE + 1, 3000, MAX_SIZE):
        s.expect(cut(size), calls.truncate(2, size))
        full(s, "refused 28")
    has(s, b"/a", 2, A[:700], cursor=300)
    s.expect(cut(3000), calls.truncate(2, 3000))
    s.expect("done 0", Reply(DONE))
    has(s, b"/a", 2, A[:700].ljust(3000, b"\0"), cursor=700)


def full_growth_of_nothing(s):
    opened(s)
    s.expect(cut(1), calls.truncate(2, 1))
    full(s, "refused 28")
    has(s, b"/a", 2, b"", cursor=0)
    s.expect("done 0", calls.truncate(2, 0))
    s.do(calls.close(2))
    s.expect("done 39", Save(39))


# every event's numbers

def full_short_buffers(s):
    """34 comes first and leaves the request; then the disk is full, or is not."""
    too_short = ((ANSWER - 1, REQUEST), (ANSWER, REQUEST - 1), (0, 0))

    def refused(times=too_short):
        for lengths in times:
            s.expect("refused 34", Reply(FULL_DISK, *lengths))
        s.expect("refused 114", calls.stat(b"/"))

    opened(s)
    for call in (calls.create(7, b"/b"), calls.mkdir(7, b"/b"), calls.write(2, A), calls.truncate(2, 5)):
        s.expect("ask", call)
        refused()
        full(s, "refused 28")
    s.expect("ask", calls.write(2, A + B))
    refused()
    s.expect("ask", Reply(STORED))
    refused()
    full(s, "done 1024")
    s.expect("ask", calls.create(7, b"/b"))
    refused()
    s.expect("done 3", Reply(put(3, 4)))


def full_longer_buffers(s):
    opened(s)
    for lengths in ((ANSWER + 1, REQUEST), (ANSWER, REQUEST + 1), (2 * ANSWER, 2 * REQUEST)):
        s.expect("ask", calls.mkdir(7, b"/b"))
        s.expect("refused 28", Reply(FULL_DISK, *lengths))
        s.expect("ask", calls.write(2, A + B))
        s.expect("refused 28", Reply(FULL_DISK, *lengths))
        s.expect("ask", calls.truncate(2, MAX_SIZE))
        s.expect("refused 28", Reply(FULL_DISK, *lengths))
    s.expect("ask", calls.write(2, A + B))
    s.expect("ask", Reply(STORED))
    s.expect("done 1024", Reply(FULL_DISK, 2 * ANSWER, 2 * REQUEST))


def full_unasked(s):
    s.expect("refused 61", IS_FULL)
    s.expect_end("done 2", calls.create(7, b"/a"))
    s.expect("refused 61", IS_FULL)
    s.stop()
    s.expect("refused 5", IS_FULL)


SCRIPTS = [
    full_create, full_mkdir, full_again_and_again, full_before_the_last_node, full_beside_that_id, full_within_that_id,
    full_neighbours_as_ids, full_first_page, full_second_page, full_last_page, full_fifth_page, full_within_a_page,
    full_after_the_last_byte_of_a_page, full_after_a_fetch, full_after_a_later_fetch, full_over_what_is_there,
    full_across_the_old_end, full_beside_another_file, full_without_the_right_to_read, full_pages_are_free,
    full_at_the_largest_file, full_save_and_load, full_growth, full_growth_of_nothing, full_short_buffers,
    full_longer_buffers, full_unasked,
]


# every request, one list each

def store_over_a_page(s):
    handle = s.file(b"/a", A)
    s.do(calls.seek(handle, 0))
    s.expect("ask", calls.write(handle, B))


def store_after_a_fetch(s):
    s.expect("ask", calls.write(s.file(b"/a", b"12345"), b"x"))
    s.expect("ask", Reply(s.truth))


def cut_behind_a_store(s):
    dishonest.store_of_a_truncation(s)
    s.expect("ask", Reply(s.truth))


# what asks the host, and the answer to a full disk
PLACES = {
    dishonest.create: "refused 28", dishonest.mkdir: "refused 28", dishonest.store_first_page: "refused 28",
    dishonest.store_last_page: "done 1024", store_over_a_page: "refused 28", store_after_a_fetch: "refused 28",
    dishonest.cut_that_grows: "refused 28", dishonest.cut_that_adds_pages: "refused 28",
    dishonest.open_: "stopped 4", dishonest.close: "stopped 2", dishonest.read_first_page: "stopped 1",
    dishonest.read_last_page: "stopped 1", dishonest.fetch_of_a_write: "stopped 1",
    dishonest.fetch_of_a_truncation: "stopped 1", dishonest.store_of_a_truncation: "stopped 2",
    dishonest.cut: "stopped 2", cut_behind_a_store: "stopped 2", dishonest.remove: "stopped 2",
    dishonest.rmdir: "stopped 2", dishonest.chmod: "stopped 2", dishonest.readdir: "stopped 7",
    dishonest.readdir_of_one: "stopped 7", dishonest.readdir_of_none: "stopped 7", dishonest.stat: "stopped 1",
    dishonest.stat_of_a_directory: "stopped 1", dishonest.map_of_one_unit: "stopped 1", dishonest.unmap: "stopped 2",
    dishonest.rename: "stopped 2", dishonest.rename_of_a_directory: "stopped 2",
}


def full_lists():
    """Pairs of a name and a script that has run: each request answered so, in four bytes and in others."""
    for place, answer in PLACES.items():
        s = dishonest.asked(place)
        s.expect(answer, IS_FULL)
        after_a_stop(s) if is_stop(answer) else after_an_end(s)
        yield f"{place.__name__}: disk full", s
        for width in WIDTHS[-1:] if is_stop(answer) else WIDTHS:
            s = dishonest.asked(place)
            s.expect(f"stopped {7 if s.request[0] == READDIR else 1}", Reply(put(NO_SPACE, width)))
            after_a_stop(s)
            yield f"{place.__name__}: disk full in {width} bytes", s


def neighbour_lists():
    """The numbers beside it mean nothing: to a store or a cut they are wrong."""
    for place, answer in PLACES.items():
        if is_stop(answer) or dishonest.asked(place).request[0] in (CREATE, MKDIR):
            continue
        for status in (NO_SPACE + 1, NO_SPACE - 1, -NO_SPACE):
            s = dishonest.asked(place)
            s.expect("stopped 2", Reply(put(status, 4)))
            after_a_stop(s)
            yield f"{place.__name__}: status {status}, the disk being full or not", s


def is_stop(answer):
    return answer.startswith("stopped")


def after_a_stop(s):
    for event in (calls.stat(b"/"), IS_FULL, Save(1000)):
        s.expect("refused 5", event)


def after_an_end(s):
    """The guard works on: what is listed and saved is what the host has, which did nothing."""
    s.expect("refused 61", IS_FULL)
    s.expect_end("done", calls.readdir(b"/"))
    for node in s.guard.nodes[1:]:
        if node.parent == 1:
            s.expect_end("done", calls.stat(b"/" + node.name))
    for handle in list(s.guard.open_files):
        s.do(calls.seek(handle, 0))
        s.do(calls.read(handle, MAX_COUNT))
        s.expect_end("done 0", calls.close(handle))
    s.expect("done", Save(1000))

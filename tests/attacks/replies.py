"""Rows about what a host does while a guard runs. A deviation gets the host, the request's name and its fields."""

from model import calls
from model.rules import ADDRESS, MAX_MAP, MAX_MAPS, PAGE, SPACE, UNIT, put, unsigned

from .host import FAILED, status
from .trial import A, B, C, NEW, Row

FULL = status(-28)  # where a call may end by it: the disk is full, and nothing was done for the request
NUMBERS = {"ENOENT": -2, "EINTR": -4, "EIO": -5, "EEXIST": -17, "EINVAL": -22, "ENOSPC": -28, "ENOMEM": -12}


# ---- deviations

def on(name, act):
    """At the first request of this name."""
    return lambda host, asked, fields: act(host, fields) if asked == name else None


def says(name, reply):
    """Obeys, and replies something else."""
    def act(host, fields):
        getattr(host, name)(fields)
        return reply
    return on(name, act)


def only_says(name, reply):
    """Does nothing, and replies this."""
    return on(name, lambda host, fields: reply)


def fetches(given):
    """Another page for the one that is asked: `given(host, file, page)`."""
    return on("fetch", lambda host, fields: given(host, host.open_files[unsigned(fields[:4])], unsigned(fields[4:8])))


def stores(put_page):
    """Answers right, after `put_page(host, file, page, size, bytes)` in the place of the store."""
    def act(host, fields):
        descriptor, page, size = (unsigned(fields[at : at + 4]) for at in (0, 4, 8))
        put_page(host, host.open_files[descriptor], page, size, fields[12:])
        return status(PAGE)
    return on("store", act)


def elsewhere(name, path):
    """The request by path, done to another path."""
    def act(host, fields):
        mode = fields[:1] if name in ("create", "mkdir", "open", "chmod") else b""
        return getattr(host, name)(mode + path)
    return on(name, act)


def other_file(name):
    """The request by descriptor, done to the other open file."""
    return on(name, lambda host, fields: getattr(host, name)(put(1 - unsigned(fields[:4]), 4) + fields[4:]))


def misplaced(shift):
    """A store so many bytes from where it belongs."""
    def put_page(host, file, page, size, data):
        at = page * PAGE + shift
        file.data[at : at + PAGE] = data
        file.data = file.data[:size].ljust(size, b"\0")
    return stores(put_page)


def sized(change):
    """A store whose page is put in, and whose size is another one."""
    def put_page(host, file, page, size, data):
        file.data[page * PAGE : (page + 1) * PAGE] = data
        file.data = file.data[: change(size)].ljust(change(size), b"\0")
    return stores(put_page)


def half(host, file, page, size, data):
    file.data[page * PAGE : page * PAGE + PAGE // 2] = data[: PAGE // 2]
    file.data = file.data[:size].ljust(size, b"\0")


def flipped(host, file, page):
    right = bytearray(file.page(page))
    right[700] ^= 1
    return bytes(right)


def behind_the_end(host, file, page):
    return file.page(page)[:-1] + b"x"


def stale(host, file, page):
    return host.old.get((file.id, page), bytes(PAGE))


def linked(host, fields):
    """A name more for a file that is there."""
    directory, name = host.split(fields[1:])
    directory.entries[name] = host.find(b"/a")
    return put(NEW, 4)


def recast(host, fields):
    """The status 0 is a descriptor that is free."""
    return host.chmod(b"\0" + fields[1:])


def swapped_pages(host, name, fields):
    """Before it replies, two pages of /a change places on the disk."""
    data = host.find(b"/a").data
    data[:PAGE], data[PAGE : 2 * PAGE] = data[PAGE : 2 * PAGE], data[:PAGE]
    return host.obey(b"\x0d/d")


def changed_behind(host, name, fields):
    """Another program writes to /a, past guard and host."""
    host.find(b"/a").data[0] ^= 1
    return host.obey(b"\x0d/d")


def grows(added):
    """A cut that makes a file longer, by other bytes than zeros."""
    def act(host, fields):
        file, size = host.open_files[unsigned(fields[:4])], unsigned(fields[4:])
        if size <= len(file.data):
            return None
        file.data += added * (size - len(file.data))
        return status(0)
    return on("cut", act)


def full_at(page, keep=False):
    """A store of this page finds the disk full; the page is put in nevertheless, or not."""
    def act(host, fields):
        if unsigned(fields[4:8]) != page:
            return None
        if keep:
            host.store(fields)
        return FULL
    return on("store", act)


def half_and_full(host, fields):
    """A half of the page is left on the full disk."""
    descriptor, page, size = (unsigned(fields[at : at + 4]) for at in (0, 4, 8))
    half(host, host.open_files[descriptor], page, size, fields[12:])
    return FULL


def listed(make):
    return on("readdir", lambda host, fields: make(host.readdir(fields)))


def twice_and_missing(listing):
    return listing[:7] * 3  # /a, /b and /d have entries of seven bytes


def lends(address, memory=bytes):
    """A map at another address, `address(host, length)`, with what `memory(length)` has."""
    return on("map", lambda host, fields: put(address(host, unsigned(fields)), ADDRESS) + memory(unsigned(fields)))


def lends_second(shift):
    """A second map that begins so many units from the first."""
    def act(host, fields):
        if not host.maps:
            return None
        return put(next(iter(host.maps)) + shift * UNIT, ADDRESS) + bytes(unsigned(fields))
    return on("map", act)


def lends_below(host, fields):
    """Where the first of two has ended, memory up to within the second."""
    return put(UNIT, ADDRESS) + bytes(unsigned(fields)) if list(host.maps) == [2 * UNIT] else None


def free(host, length):
    return host.new_address(length)


def dirty(at):
    """Memory with a byte that is not zero, counted from the end where it is below 0."""
    return lambda length: bytes(at % length) + b"x" + bytes(length - at % length - 1)


def left_there(host, fields):
    """The second time as the client may have left it."""
    if host.is_used:
        return host.map(fields)[:ADDRESS] + b"left".ljust(unsigned(fields), b"\0")
    host.is_used = True


def unmaps_other(host, fields):
    """The other of two maps ends."""
    del host.maps[next(address for address in host.maps if address != unsigned(fields))]
    return status(0)


# ---- the client's calls

READ_A = [calls.seek(A, 0), calls.read(A, 2500)]
WRITE_A = [calls.seek(A, 1024), calls.write(A, b"n" * 1024)]  # one whole page: no fetch
WRITE_PAGES = [calls.seek(A, 0), calls.write(A, b"n" * 2500)]
READ_B = [calls.seek(B, 0), calls.read(B, 2048)]
STAT_D = [calls.stat(b"/d")]
REOPEN = [calls.close(A), calls.open_(3, b"/a")]

CONTENT = "000, 3 and 3.3 (A1, SP5)"
MAPS, DIRTY = "000, 2.3 (mmap, glibc), TP14", "000, 2.3 (mmap, glibc), TP15"
MAP, MAP_TWICE = [calls.map_(2 * UNIT)], [calls.map_(2 * UNIT), calls.map_(2 * UNIT)]
PATH, DESCRIPTOR = "000, 3.3 (A2a, SP1)", "000, 3.3 (A2b, SP2, SP3)"
SIZE, ERRORS = "000, 3.3 (A3)", "000, 2.3 and 3.3 (A4)"
FULL_DISK = f"{ERRORS}; 002, V.B (false failure): a full disk"

ROWS = [
    # content
    Row(f"{CONTENT}; 001, 3.1; 002, III (corrupt)", "gives a page with one bit changed", READ_A, fetches(flipped),
        "now 5"),
    Row(f"{CONTENT}; 004, 2.3 and 3.1.1; 002, III (replay)", "gives the page of before the last write",
        [*WRITE_A, *READ_A], on("fetch", lambda h, f: stale(h, h.open_files[0], 1) if f[4] == 1 else None), "now 5"),
    Row(f"{CONTENT}: at the wrong block", "gives another page of the file", READ_A,
        fetches(lambda host, file, page: file.page(page + 1)), "now 5"),
    Row("002, V.B and III (swap); 004, 3.1 (file swapping)", "gives the same page of another file", READ_A,
        fetches(lambda host, file, page: host.find(b"/b").page(page)), "now 5"),
    Row("002, III (swap)", "gives another page that has the same bytes", READ_B,
        fetches(lambda host, file, page: file.page(1 - page)), "harmless"),
    Row(f"{CONTENT}: misaligned sequences of blocks", "puts two pages in each other's place", [*STAT_D, *READ_A],
        lambda host, name, fields: swapped_pages(host, name, fields) if name == "stat" else None, "later 5"),
    Row(f"{CONTENT}: several blocks to one", "puts a store of page 1 into page 0, and answers right",
        [*WRITE_A, *READ_A], misplaced(-PAGE), "later 5"),
    Row(f"{CONTENT}: at the wrong offset", "stores one byte from where it belongs, and answers right",
        [*WRITE_A, *READ_A], misplaced(1), "later 5"),
    Row("002, III (drop); 001, 6 (a write that corrupts)", "loses a store, and answers right", [*WRITE_A, *READ_A],
        stores(lambda *_: None), "later 5"),
    Row("own", "loses a store; the client writes the whole page again before it reads", [*WRITE_A, *WRITE_A, *READ_A],
        stores(lambda *_: None), "harmless"),
    Row("own: a page is more than the file's bytes", "gives bytes that are not zero behind the end of the file",
        [calls.seek(A, 2048), calls.read(A, 10)], fetches(behind_the_end), "now 5"),
    Row("000, 3.1 (scope); 001, 6 (state changed from outside)", "lets another program write to the file",
        [*STAT_D, *READ_A], lambda host, name, fields: changed_behind(host, name, fields) if name == "stat" else None,
        "later 5"),
    # paths
    Row(f"{PATH}, TP2", "opens another file than the one that is named", [calls.close(A), calls.open_(3, b"/a"),
        *READ_A],
        elsewhere("open", b"/b"), "later 5"),
    Row(f"{PATH}, TP4", "makes a new file under another name", [calls.create(7, b"/n"), calls.readdir(b"/")],
        elsewhere("create", b"/x"), "later 7"),
    Row(PATH, "makes a new file under another name; the client opens it", [calls.create(7, b"/n"), calls.open_(3,
        b"/n")],
        elsewhere("create", b"/x"), "later 4"),
    Row("001, 3.1 (link)", "makes a link to an old file in the place of a new file",
        [calls.create(7, b"/n"), calls.open_(3, b"/n"), calls.write(NEW, b"new" * 400), *READ_A], on("create",
            linked), "later 5"),
    Row("001, 3.1 (link)", "makes a link to an old file in the place of a new one; the client asks for its size",
        [calls.create(7, b"/n"), calls.stat(b"/n")], on("create", linked), "later 6"),
    Row(f"{PATH}, TP3", "makes a file where a directory is asked for", [calls.mkdir(7, b"/n"), calls.stat(b"/n")],
        on("mkdir", lambda host, fields: host.create(fields)), "later 6"),
    Row(f"{PATH}, TP5", "removes another file than the one that is named", [calls.remove(b"/d/c"), calls.readdir(b"/")],
        elsewhere("remove", b"/b"), "later 7"),
    Row(PATH, "does not remove, and says that it did", [calls.remove(b"/d/c"), calls.readdir(b"/d")],
        only_says("remove", status(0)), "later 7"),
    Row(PATH, "does not remove, and says that it did; the name is never asked for again",
        [calls.remove(b"/d/c"), *READ_A], only_says("remove", status(0)), "harmless"),
    Row(f"{PATH}, TP6", "does not remove a directory, and says that it did",
        [calls.remove(b"/d/c"), calls.rmdir(b"/d"), calls.readdir(b"/")],
        lambda host, name, fields: status(0) if (name, fields) == ("remove", b"/d") else None, "later 7"),
    Row(f"{PATH}, TP3", "makes no directory, and gives an id; the client makes a file in it, and opens that",
        [calls.mkdir(7, b"/n"), calls.create(7, b"/n/x"), calls.open_(3, b"/n/x")], only_says("mkdir", put(NEW, 4)),
            "later 4"),
    Row(f"{PATH}, TP9", "changes another node's mode", [calls.chmod(4, b"/a"), calls.stat(b"/a")], elsewhere("chmod",
        b"/b"),
        "later 6"),
    Row("002, V.B (recast opcodes)", "carries an open out as a chmod, whose status is a good descriptor",
        [calls.close(A), calls.open_(1, b"/d/c"), calls.stat(b"/d/c")], on("open", recast), "later 6"),
    Row(f"{PATH}, TP8", "lists another directory", [calls.readdir(b"/")], elsewhere("readdir", b"/d"), "now 7"),
    Row("01, traps (counting entries)", "lists one child three times, as many as there are", [calls.readdir(b"/")],
        listed(twice_and_missing), "now 7"),
    Row(PATH, "leaves a child out", [calls.readdir(b"/")], listed(lambda listing: listing[7:]), "now 7"),
    Row(PATH, "lists a child that is not there", [calls.readdir(b"/d")],
        listed(lambda listing: listing + put(99, 4) + b"\1\1x"), "now 7"),
    Row("own", "lists in another order", [calls.readdir(b"/")], listed(lambda listing: listing[7:] + listing[:7]),
        "harmless", is_free=True),
    Row(f"{PATH}, TP7", "tells another node's stat", [calls.stat(b"/a")], elsewhere("stat", b"/b"), "now 6"),
    # descriptors and ids
    Row(f"{DESCRIPTOR}; 001, 3.1 (Graphene-SGX)", "gives the descriptor of another open file", [calls.open_(3,
        b"/d/c")],
        says("open", put(1, 4)), "now 4"),
    Row(DESCRIPTOR, "gives a descriptor over 1,023", [calls.open_(3, b"/d/c")], says("open", put(1024, 4)), "now 4"),
    Row(DESCRIPTOR, "fetches from the other open file", READ_A, other_file("fetch"), "now 5"),
    Row(DESCRIPTOR, "stores into the other open file, and answers right; the client reads what it wrote",
        [*WRITE_A, *READ_A], other_file("store"), "later 5"),
    Row(DESCRIPTOR, "stores into the other open file, and answers right; the client reads the other file",
        [*WRITE_A, *READ_B], other_file("store"), "later 5"),
    Row(f"{DESCRIPTOR}, TP1", "closes the other open file", [calls.close(A), *READ_B], other_file("close"), "later 1"),
    Row("000, 3.2 (SP1)", "gives a new file the id of an old one", [calls.create(7, b"/n")], says("create", put(A,
        4)), "now 3"),
    Row("000, 3.2 (SP1)", "gives a new directory the id 0", [calls.mkdir(7, b"/n")], says("mkdir", put(0, 4)), "now 3"),
    # sizes
    Row(f"{SIZE}, TP11", "gives half a page", READ_A, on("fetch", lambda host, fields: host.fetch(fields)[:512]),
        "now 1"),
    Row(f"{SIZE}; 000, 7.2 (example 3: overflow)", "gives 70,000 bytes for a page", READ_A,
        on("fetch", lambda host, fields: bytes(70000)), "now 1"),
    Row("000, 7.2 (example 3: overflow)", "gives a listing longer than the answer buffer", [calls.readdir(b"/d")],
        listed(lambda listing: listing * 2000), "now 7"),
    Row(SIZE, "says that it stored 512 bytes", WRITE_A, says("store", status(512)), "now 2"),
    Row(f"{SIZE}, TP12", "stores half a page, and answers right", [*WRITE_A, *READ_A], stores(half), "later 5"),
    Row(SIZE, "does not let the file grow, and answers right", [calls.seek(A, 2500), calls.write(A, b"x" * 10),
        calls.stat(b"/a")],
        sized(lambda size: size - 10), "later 6"),
    Row(SIZE, "does not let the file grow, and answers right; the client reads",
        [calls.seek(A, 2500), calls.write(A, b"x" * 10), *READ_A], sized(lambda size: size - 10), "later 5"),
    Row(f"{SIZE}, TP13", "ignores a cut, and answers right; the client asks for the size", [calls.truncate(A, 1024),
        calls.stat(b"/a")],
        only_says("cut", status(0)), "later 6"),
    Row(SIZE, "ignores a cut, and answers right; the client reads what is left", [calls.truncate(A, 1024),
        *READ_A[:1], calls.read(A, 2500)],
        only_says("cut", status(0)), "harmless"),
    Row(SIZE, "cuts to another size, and answers right", [calls.truncate(A, 2048), *READ_A],
        on("cut", lambda host, fields: host.cut(fields[:4] + put(1000, 4))), "later 5"),
    Row(f"{SIZE}, TP13", "ignores a cut that makes the file longer, and answers right; the client asks for the size",
        [calls.truncate(A, 4000), calls.stat(b"/a")], only_says("cut", status(0)), "later 6"),
    Row("own: what is added is zero", "makes the file longer by bytes that are not zero, and answers right",
        [calls.truncate(A, 4000), *READ_A], grows(b"x"), "later 5"),
    Row("own: what is added is zero", "makes the file longer by bytes that are not zero; an added page is read",
        [calls.truncate(A, 4000), calls.seek(A, 3072), calls.read(A, 100)], grows(b"x"), "later 5"),
    Row(f"{CONTENT}; 002, III (replay)", "gives a page of before a cut, once the file is as long again",
        [calls.truncate(A, 1024), calls.truncate(A, 2500), *READ_A],
        on("fetch", lambda h, f: stale(h, h.open_files[0], 1) if f[4] == 1 else None), "now 5"),
    Row(SIZE, "tells a larger size", [calls.stat(b"/a")], on("stat", lambda host,
        fields: host.stat(fields)[:6] + put(2501, 4)), "now 6"),
    # error codes
    Row(f"{ERRORS}: the vote log, figures 1 and 2; 003", "says that a file is not there", [*REOPEN], only_says("open",
        FAILED), "now 4"),
    Row(f"{ERRORS}; 000, 7.2 (example 4)", "would say that a file is there that is not", [calls.open_(3, b"/n")],
        only_says("open", put(9, 4)), "refused 2"),
    Row("000, 2.3 (an empty name, figure 2c)", "would give an error number of its own", [calls.open_(3, b"")],
        only_says("open", FAILED), "refused 22"),
    Row("000, 3.2 (SP4, TP10)", "would put a cursor behind the end", [calls.seek(A, 2501)],
        lambda host, name, fields: None, "refused 22"),
    Row("000, 3.2 (SP3)", "would open a file a second time", [calls.open_(3, b"/a")], only_says("open", put(9, 4)),
        "refused 16"),
    *(Row(f"{ERRORS}; 002, V.B (false failure)", f"does what is asked and says that it failed: {call[0]}", call[1],
          says(name, status(NUMBERS[error])), expected)
      for name, error, call, expected in (
          ("close", "EINTR", ("close", [calls.close(A)]), "now 2"),
          ("remove", "EIO", ("remove", [calls.remove(b"/d/c")]), "now 2"),
          ("chmod", "EINVAL", ("chmod", [calls.chmod(0, b"/a")]), "now 2"),
          ("store", "EIO", ("write", WRITE_A), "now 2"),
          ("cut", "EIO", ("truncate", [calls.truncate(A, 0)]), "now 2"),
          ("fetch", "EINTR", ("read", READ_A), "now 1"),
          ("stat", "ENOENT", ("stat", [calls.stat(b"/a")]), "now 1"),
          ("readdir", "ENOENT", ("readdir", [calls.readdir(b"/d")]), "now 7"),
          ("map", "ENOMEM", ("map", MAP), "now 1"),
          ("unmap", "EINVAL", ("unmap", [*MAP, calls.unmap(UNIT)]), "now 2"),
      )),
    Row(ERRORS, "replies to a create with an error number: as good an id as any other, and the host is bound to it",
        [calls.create(7, b"/n"), calls.stat(b"/n")], says("create", status(NUMBERS["EEXIST"])), "later 6",
            is_free=True),
    # a full disk
    Row("own: a full disk", "has no room for a new file, says so, and makes none", [calls.create(7, b"/n")],
        only_says("create", FULL), "refused 28"),
    Row("own: a full disk", "has no room for a write's first page, says so, and stores nothing", WRITE_A,
        only_says("store", FULL), "refused 28"),
    Row("own: a full disk", "has no room for what a truncation adds, says so, and adds nothing",
        [calls.truncate(A, 4000)], only_says("cut", FULL), "refused 28"),
    Row("own: a full disk", "has no room for a write's third page, says so, and has stored two", WRITE_PAGES,
        full_at(2), "done 2048"),
    Row(FULL_DISK, "makes a file, and says that there is no room for it: with these bytes for its id, too",
        [calls.create(7, b"/n"), calls.readdir(b"/")], says("create", FULL), "later 7"),
    Row(FULL_DISK, "makes a directory, and says that there is no room for it",
        [calls.mkdir(7, b"/n"), calls.readdir(b"/")], says("mkdir", FULL), "later 7"),
    Row(FULL_DISK, "stores a page, and says that there is no room for it", [*WRITE_A, *READ_A], says("store", FULL),
        "later 5"),
    Row(FULL_DISK, "stores half a page, and says that there is no room for it", [*WRITE_A, *READ_A],
        on("store", half_and_full), "later 5"),
    Row(FULL_DISK, "stores a write's third page, and says that there was room for two", [*WRITE_PAGES, *READ_A],
        full_at(2, keep=True), "later 5"),
    Row(FULL_DISK, "makes a file longer, and says that there is no room; the client asks for the size",
        [calls.truncate(A, 4000), calls.stat(b"/a")], says("cut", FULL), "later 6"),
    *(Row(FULL_DISK, f"says so in eight bytes: {call[0]}", call[1], only_says(name, FULL + b"\xff" * 4), "now 1")
      for name, call in (
          ("create", ("create", [calls.create(7, b"/n")])), ("mkdir", ("mkdir", [calls.mkdir(7, b"/n")])),
          ("store", ("write", WRITE_A)), ("cut", ("truncate", [calls.truncate(A, 4000)])),
      )),
    *(Row(FULL_DISK, f"says so where no call ends by it: {call[0]}", call[1], only_says(name, FULL), expected)
      for name, call, expected in (
          ("store", ("the store of a truncation to less", [calls.truncate(A, 1000)]), "now 2"),
          ("cut", ("the cut of a truncation to less", [calls.truncate(A, 1024)]), "now 2"),
          ("close", ("close", [calls.close(A)]), "now 2"),
          ("remove", ("remove", [calls.remove(b"/d/c")]), "now 2"),
          ("chmod", ("chmod", [calls.chmod(0, b"/a")]), "now 2"),
          ("unmap", ("unmap", [*MAP, calls.unmap(UNIT)]), "now 2"),
          ("open", ("open", [calls.open_(3, b"/d/c")]), "now 4"),
          ("fetch", ("a fetch of a read", READ_A), "now 1"),
          ("fetch", ("a fetch of a write", [calls.seek(A, 10), calls.write(A, b"x")]), "now 1"),
          ("stat", ("stat", [calls.stat(b"/a")]), "now 1"),
          ("map", ("map", MAP), "now 1"),
          ("readdir", ("readdir", [calls.readdir(b"/d")]), "now 7"),
      )),
    # maps
    Row(MAPS, "lends memory at address 0", MAP, lends(lambda host, length: 0), "now 8"),
    Row(MAPS, "lends memory that begins within a page of the machine", MAP,
        lends(lambda host, length: free(host, length) + 512), "now 8"),
    Row(MAPS, "lends memory whose last page is beyond the end of the space", MAP,
        lends(lambda host, length: SPACE - length + UNIT), "now 8"),
    Row("own: the last byte that there is", "lends memory that ends with the space", MAP,
        lends(lambda host, length: SPACE - length), "harmless", is_free=True),
    Row(MAPS, "lends the same memory twice", MAP_TWICE, lends_second(0), "now 8"),
    Row(MAPS, "lends memory whose first page is lent already", MAP_TWICE, lends_second(1), "now 8"),
    Row(MAPS, "lends memory whose last page is lent already",
        [calls.map_(UNIT), *MAP, calls.unmap(UNIT), *MAP], on("map", lends_below), "now 8"),
    Row(MAPS, "lends memory within memory that is lent already", [calls.map_(4 * UNIT), calls.map_(UNIT)],
        lends_second(2), "now 8"),
    Row("own: touching is no overlap", "lends memory that begins where the other ends", MAP_TWICE, lends_second(2),
        "harmless", is_free=True),
    Row(DIRTY, "lends memory whose first byte is not zero", MAP, lends(free, dirty(0)), "now 8"),
    Row(DIRTY, "lends memory whose last byte is not zero", MAP, lends(free, dirty(-1)), "now 8"),
    Row(DIRTY, "lends memory again with what was left in it", [*MAP, calls.unmap(UNIT), *MAP], on("map", left_there),
        "now 8", is_repeated=True),
    Row(MAPS, "takes back another map than the one that is named, and lends its memory again",
        [*MAP_TWICE, calls.unmap(UNIT), *MAP], on("unmap", unmaps_other), "later 8"),
    Row("own", "takes nothing back, and says that it did", [*MAP, calls.unmap(UNIT), *MAP],
        only_says("unmap", status(0)), "harmless", is_free=True),
    Row(f"{SIZE}; 000, 7.2 (example 3: overflow)", "lends fewer bytes than were asked for", MAP,
        on("map", lambda host, fields: host.map(fields)[:-UNIT]), "now 1"),
    Row(SIZE, "gives an address alone", MAP, on("map", lambda host, fields: host.map(fields)[:ADDRESS]), "now 1"),
    Row(SIZE, "would lend more than may be asked for", [calls.map_(MAX_MAP + UNIT)], lends(free), "refused 22"),
    Row("own", "would lend memory beside sixteen maps", [calls.map_(UNIT)] * (MAX_MAPS + 1),
        lambda host, name, fields: None, "refused 12"),
    Row(MAPS, "would take back a part of a map", [*MAP, calls.unmap(2 * UNIT)], only_says("unmap", status(0)),
        "refused 22"),
    # order
    Row("002, III (reorder)", "gives the reply to the request before", [calls.stat(b"/d"), *READ_A],
        on("fetch", lambda host, fields: host.stat(b"/d")), "now 1"),
    Row("002, III (replay)", "gives a stat that was right before the last write",
        [calls.seek(A, 2500), calls.write(A, b"x"), calls.stat(b"/a")],
        on("stat", lambda host, fields: host.stat(fields)[:6] + put(2500, 4)), "now 6"),
]

"""The guard from Python, over libguard_client.so (./run library, ./install), or what GUARD_LIBRARY names.

    files = Files(ask)                          # ask(request) gives the host's reply; both are bytes
    files.create("/a", 7)
    handle = files.open("/a", READ | WRITE)
    files.write(handle, b"bytes")
    image, digest = files.guard.save()          # the digest stays where the host cannot write
    shown = Files(ask, Reader())                # a read-only guard, which loads such an image

A refusal is an OSError with its number, a wrong reply a Stopped; a full disk is 28, or a write of fewer bytes.
"""

import ctypes
import os

MEMORY, ANSWER, REQUEST, IMAGE, DIGEST = 52864, 9690, 1037, 44776, 32
DONE, ASK, REFUSED, STOPPED = range(4)
READ, WRITE = 1, 2


class Outcome(ctypes.Structure):
    _fields_ = [("kind", ctypes.c_int), ("number", ctypes.c_uint64), ("length", ctypes.c_size_t)]


class Stopped(Exception):
    """The host's reply is wrong: the reason, and the request. From now on everything is refused 5."""

    def __init__(self, reason, request):
        super().__init__(f"stopped {reason}: {text('stop', reason)}")
        self.reason, self.request = reason, request


def load_library():
    beside = os.path.join(os.path.dirname(__file__), "../../target/libguard_client.so")
    name = os.environ.get("GUARD_LIBRARY") or (beside if os.path.exists(beside) else "libguard_client.so")
    library = ctypes.CDLL(name)
    pointer, size = ctypes.c_char_p, ctypes.c_size_t
    for name, types in {
        "fresh": [], "call": [pointer, size] * 3, "reader_call": [pointer, size] * 3, "reply": [pointer, size] * 3,
        "save": [pointer, size, pointer], "load": [pointer, size] * 2}.items():
        entry = getattr(library, f"guard_entry_{name}")
        entry.argtypes, entry.restype = [pointer, size, *types], Outcome
    for name in ("version", "number_text", "stop_text"):
        function = getattr(library, f"guard_{name}")
        function.argtypes, function.restype = [ctypes.c_uint64] * (name != "version"), ctypes.c_char_p
    return library


LIBRARY = load_library()


def version(): return LIBRARY.guard_version().decode()


def text(kind, number):
    """A refusal's number or a stop's reason in words."""
    return getattr(LIBRARY, f"guard_{kind}_text")(number).decode()


class Guard:
    """One guard. Each event gives its kind, number and bytes."""

    def __init__(self):
        self.memory = ctypes.create_string_buffer(MEMORY)
        self.answer, self.request = ctypes.create_string_buffer(ANSWER), ctypes.create_string_buffer(REQUEST)
        LIBRARY.guard_entry_fresh(self.memory, MEMORY)

    def enter(self, entry, data):
        """The buffers are this guard's own, and the bytes it is lent never change: nobody writes them meanwhile."""
        o = entry(self.memory, MEMORY, data, len(data), self.answer, ANSWER, self.request, REQUEST)
        given = self.request if o.kind == ASK else self.answer
        return o.kind, o.number, given.raw[: o.length]

    def call(self, data): return self.enter(LIBRARY.guard_entry_call, bytes(data))
    def reply(self, data): return self.enter(LIBRARY.guard_entry_reply, bytes(data))

    def save(self):
        """The image and its digest."""
        image, digest = ctypes.create_string_buffer(IMAGE), ctypes.create_string_buffer(DIGEST)
        o = LIBRARY.guard_entry_save(self.memory, MEMORY, image, IMAGE, digest)
        checked(o.kind, o.number)
        return image.raw[: o.length], digest.raw

    def load(self, image, digest):
        o = LIBRARY.guard_entry_load(self.memory, MEMORY, bytes(image), len(image), bytes(digest), len(digest))
        checked(o.kind, o.number)


class Reader(Guard):
    """A read-only guard: it takes open to read, close, seek, read, readdir and stat. All else is refused 30."""

    def call(self, data): return self.enter(LIBRARY.guard_entry_reader_call, bytes(data))


def checked(kind, number, request=b""):
    if kind == REFUSED:
        raise OSError(number, text("number", number))
    if kind == STOPPED:
        raise Stopped(number, request)
    return number


def four(x): return x.to_bytes(4, "little")


class Files:
    """The calls, through a guard, with `ask` for the host. A path is text or bytes; a rename's has at most 255."""

    def __init__(self, ask, guard=None):
        self.ask, self.guard = ask, guard or Guard()

    def do(self, data):
        """A call with its requests: its number and bytes."""
        kind, number, given = self.guard.call(data)
        request = b""
        while kind == ASK:
            request = given
            kind, number, given = self.guard.reply(self.ask(request))
        return checked(kind, number, request), given

    def by_path(self, kind, path, *field): return self.do(bytes([kind, *field]) + os.fsencode(path))
    def create(self, path, mode): return self.by_path(1, path, mode)[0]
    def mkdir(self, path, mode): return self.by_path(2, path, mode)[0]
    def open(self, path, rights): return self.by_path(3, path, rights)[0]
    def close(self, handle): self.do(b"\4" + four(handle))
    def seek(self, handle, position): return self.do(b"\5" + four(handle) + position.to_bytes(8, "little"))[0]
    def read(self, handle, count): return self.do(b"\6" + four(handle) + four(count))[1]
    def write(self, handle, data): return self.do(b"\7" + four(handle) + data)[0]
    def truncate(self, handle, size): self.do(b"\x08" + four(handle) + size.to_bytes(8, "little"))
    def remove(self, path): self.by_path(9, path)
    def rmdir(self, path): self.by_path(10, path)
    def chmod(self, path, mode): self.by_path(11, path, mode)

    def readdir(self, path):
        """Name, id and kind of each child."""
        listing, at = self.by_path(12, path)[1], 0
        while at < len(listing):
            end = at + 6 + listing[at + 5]
            yield listing[at + 6 : end], int.from_bytes(listing[at : at + 4], "little"), listing[at + 4]
            at = end

    def stat(self, path):
        """Id, kind, mode and size."""
        data = self.by_path(13, path)[1]
        return int.from_bytes(data[:4], "little"), data[4], data[5], int.from_bytes(data[6:], "little")

    def map(self, length): return self.do(b"\x0e" + four(length))[0]
    def unmap(self, address): self.do(b"\x0f" + address.to_bytes(8, "little"))
    def rename(self, path, new): self.by_path(16, path + new, min(len(os.fsencode(path)), 256) % 256)

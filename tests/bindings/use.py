"""The same list through the Python binding as use.rs has through the Rust one: python3 use.py VERSION."""

import sys
import tempfile

from conform.host import Host
from guard import READ, WRITE, Files, Reader, Stopped, text, version


FULL = (-28).to_bytes(4, "little", signed=True)


class Lying:
    """A host whose replies may be changed, and whose disk may be full."""

    def __init__(self):
        self.host, self.lies, self.is_full = Host(tempfile.gettempdir()), False, False
        self.host.start(b"")

    def __call__(self, request):
        if self.is_full and (request[0] in (2, 8) or (request[0] == 7 and request[5] > 0)):
            return FULL
        reply = self.host.request(request)
        return reply[:-1] + bytes([reply[-1] ^ 1]) if self.lies and request[0] in (6, 14) else reply


def show(name, act, words=lambda given: [given] if given is not None else []):
    """A call and what it gives, in one line."""
    try:
        print(*[name, *words(act())])
    except OSError as error:
        print("refused", error.errno)
    except Stopped as stop:
        print("stopped", stop.reason, stop.request.hex())


TOP = 1 << 64  # the host's maps go down from there


def sums(data):
    return [len(data), sum(data)]


def listing(entries):
    parts = (id.to_bytes(4, "little") + bytes([kind, len(name)]) + name for name, id, kind in entries)
    return [b"".join(parts).hex() or "-"]


def first_life(files):
    show("mkdir", lambda: files.mkdir("/d", 7))
    show("create", lambda: files.create("/d/a", 6))
    show("open", lambda: files.open("/d/a", READ | WRITE))
    show("write", lambda: files.write(3, bytes(i % 251 for i in range(3000))))
    show("seek", lambda: files.seek(3, 1000))
    show("read", lambda: files.read(3, 4000), sums)
    show("truncate", lambda: files.truncate(3, 1500))
    show("stat", lambda: files.stat("/d/a"), lambda s: [f"{s[0].to_bytes(4, 'little').hex()}{s[1]:02x}", s[2], s[3]])
    show("listing", lambda: files.readdir("/d"), listing)
    show("open", lambda: files.open("/none", READ))
    show("rename", lambda: files.rename("/d", "/e"))
    show("listing", lambda: files.readdir("/e"), listing)
    show("seek", lambda: files.seek(3, 1400))
    show("read", lambda: files.read(3, 4000), sums)
    show("rename", lambda: files.rename("/e", "/e/a/b"))
    show("rename", lambda: files.rename("/e", "/e/b"))
    show("rename", lambda: files.rename("/e/a", "/e"))
    show("rename", lambda: files.rename("/e", "/e"))
    show("rename", lambda: files.rename("/e", "/d"))
    show("rename", lambda: files.rename("/d" + 128 * "/a", "/e"))
    show("save", lambda: files.guard.save())
    show("chmod", lambda: files.chmod("/d/a", 4))
    show("close", lambda: files.close(3))
    show("map", lambda: files.map(65536))
    show("map", lambda: files.map(4096))
    show("map", lambda: files.map(4097))
    show("unmap", lambda: files.unmap(TOP - 65536))
    show("unmap", lambda: files.unmap(TOP - 65536))
    saved = []
    show("save", lambda: saved.append(files.guard.save()) or len(saved[0][0]))
    return saved[0]


def second_life(files, lying, image, digest):
    show("load", lambda: files.guard.load(image, bytes(32)))
    show("load", lambda: files.guard.load(image, digest))
    show("open", lambda: files.open("/d/a", READ))
    show("read", lambda: files.read(3, 4096), sums)
    show("write", lambda: files.write(3, b"x"))
    show("close", lambda: files.close(3))
    show("remove", lambda: files.remove("/d/a"))
    show("rmdir", lambda: files.rmdir("/d"))
    show("listing", lambda: files.readdir("/"), listing)
    show("create", lambda: files.create("/b", 7))
    show("open", lambda: files.open("/b", READ | WRITE))
    show("write", lambda: files.write(4, b"hello"))
    show("seek", lambda: files.seek(4, 0))
    lying.lies = True
    show("read", lambda: files.read(4, 5))
    show("stat", lambda: files.stat("/"))


def third_life(files):
    """The host lies on."""
    show("map", lambda: files.map(8192))


def full_life(files, lying):
    """The host is honest again, and says that its disk is full where a second page is stored, a file is made or grows."""
    lying.lies, lying.is_full = False, True
    lying.host.start(b"")
    show("mkdir", lambda: files.mkdir("/e", 7))
    lying.is_full = False
    show("create", lambda: files.create("/e", 7))
    show("open", lambda: files.open("/e", READ | WRITE))
    lying.is_full = True
    show("write", lambda: files.write(2, bytes(i % 251 for i in range(3000))))
    show("write", lambda: files.write(2, b"on"))
    show("truncate", lambda: files.truncate(2, 5000))
    show("seek", lambda: files.seek(2, 0))
    show("read", lambda: files.read(2, 4096), sums)
    show("close", lambda: files.close(2))


def looked_at(files, lying, image, digest):
    """A read-only guard over the files of the full disk; the host is honest up to the last read."""
    lying.is_full = False
    show("load", lambda: files.guard.load(image, digest))
    show("open", lambda: files.open("/e", READ | WRITE))
    show("create", lambda: files.create("/f", 7))
    show("open", lambda: files.open("/e", 4))
    show("map", lambda: files.map(4096))
    show("unmap", lambda: files.unmap(4096))
    show("rename", lambda: files.rename("/e", "/f"))
    show("open", lambda: files.open("/e", READ))
    show("write", lambda: files.write(2, b"x"))
    show("seek", lambda: files.seek(2, 1000))
    show("read", lambda: files.read(2, 4096), sums)
    show("close", lambda: files.close(2))
    show("stat", lambda: files.stat("/e"), lambda s: [f"{s[0].to_bytes(4, 'little').hex()}{s[1]:02x}", s[2], s[3]])
    show("listing", lambda: files.readdir("/"), listing)
    show("remove", lambda: files.remove("/none"))
    print("save", "same" if files.guard.save() == (image, digest) else "another")
    show("open", lambda: files.open("/e", READ))
    lying.lies = True
    show("read", lambda: files.read(2, 5))


def main():
    lying = Lying()
    image, digest = first_life(Files(lying))
    second_life(Files(lying), lying, image, digest)
    third_life(Files(lying))
    files = Files(lying)
    full_life(files, lying)
    looked_at(Files(lying, Reader()), lying, *files.guard.save())
    if (version(), text("stop", 5).split(":")[0]) != (sys.argv[1], "page"):
        print("another version, or other words")


main()

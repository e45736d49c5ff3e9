"""The calls by one set of names: behind the guard, and on the machine. An error is an OSError with its number,
on both sides.
"""

import ctypes
import errno
import os
from itertools import count

from model import calls
from model.rules import MAX_SIZE, UNIT

from .beside import Different

READ, WRITE, BOTH = 1, 2, 3
LIBRARY = ctypes.CDLL(None, use_errno=True)
LIBRARY.mmap.restype = ctypes.c_void_p
PRIVATE, ANONYMOUS = 2, 0x20  # of Linux, as mmap takes them
NEW_NAMESPACE, ALL_PRIVATE = 0x20000, 0x44000  # as unshare and mount do
SMALL_DISK = b"size=1m,nr_inodes=400"


class Guarded:
    """The calls through the guard; `driver` runs drive.c."""

    def __init__(self, driver):
        self.driver = driver

    def do(self, call):
        word, number = self.driver.send(f"c {call.hex()}")[:2]
        if word == "stopped":
            raise Different(f"{call.hex()} stops with {number}")
        if word == "refused":
            raise OSError(int(number), "refused")
        return int(number)

    def create(self, path, mode=7):
        self.do(calls.create(mode, path.encode()))

    def mkdir(self, path, mode=7):
        self.do(calls.mkdir(mode, path.encode()))

    def open(self, path, rights):
        return self.do(calls.open_(rights, path.encode()))

    def close(self, handle):
        self.do(calls.close(handle))

    def seek(self, handle, position):
        self.do(calls.seek(handle, position))

    def read(self, handle, count):
        self.do(calls.read(handle, count))

    def write(self, handle, data):
        self.do(calls.write(handle, data))

    def truncate(self, handle, size):
        self.do(calls.truncate(handle, size))

    def remove(self, path):
        self.do(calls.remove(path.encode()))

    def rmdir(self, path):
        self.do(calls.rmdir(path.encode()))

    def chmod(self, path, mode=7):
        self.do(calls.chmod(mode, path.encode()))

    def readdir(self, path):
        self.do(calls.readdir(path.encode()))

    def stat(self, path):
        self.do(calls.stat(path.encode()))

    def map(self, length):
        return self.do(calls.map_(length))

    def unmap(self, address):
        self.do(calls.unmap(address))

    def rename(self, path, new_path):
        self.do(calls.rename(path.encode(), new_path.encode()))

    def fill(self):
        """From now on the host has no room."""
        self.driver.send("b 1")


class Planned(Guarded):
    """Calls that are sent together, since none can fail."""

    def __init__(self):
        self.lines = []

    def do(self, call):
        self.lines.append(f"c {call.hex()}")


class Plain:
    """The same calls of the machine; the guard's modes are the owner's bits."""

    def create(self, path, mode=7):
        os.close(os.open(path, os.O_RDWR | os.O_CREAT | os.O_EXCL, mode << 6))

    def mkdir(self, path, mode=7):
        os.mkdir(path, mode << 6)

    def open(self, path, rights):
        return os.open(path, {READ: os.O_RDONLY, WRITE: os.O_WRONLY, BOTH: os.O_RDWR}[rights])

    def close(self, handle):
        os.close(handle)

    def seek(self, handle, position):
        os.lseek(handle, position, os.SEEK_SET)

    def read(self, handle, count):
        os.read(handle, count)

    def write(self, handle, data):
        os.write(handle, data)

    def truncate(self, handle, size):
        os.ftruncate(handle, size)

    def remove(self, path):
        os.unlink(path)

    def rmdir(self, path):
        os.rmdir(path)

    def chmod(self, path, mode=7):
        os.chmod(path, mode << 6)

    def readdir(self, path):
        os.listdir(path)

    def stat(self, path):
        os.stat(path)

    def map(self, length):
        size = ctypes.c_size_t(length)
        return passed(LIBRARY.mmap(None, size, 3, PRIVATE | ANONYMOUS, -1, ctypes.c_long(0)), ctypes.c_void_p(-1).value)

    def unmap(self, address):
        """One unit of it: the guard's call has no length."""
        passed(LIBRARY.munmap(ctypes.c_void_p(address), ctypes.c_size_t(UNIT)), -1)

    def rename(self, path, new_path):
        os.rename(path, new_path)

    def fill(self):
        """No room on the small disk, for bytes nor for nodes."""
        until_full(lambda number: self.fill_file(f"/filler {number}"))
        until_full(lambda number: self.create(f"/empty filler {number}"))

    def fill_file(self, path):
        """Up to the longest that a file may be, or to the end of the disk."""
        handle = os.open(path, os.O_WRONLY | os.O_CREAT)
        try:
            for _ in range(MAX_SIZE // UNIT):
                os.write(handle, bytes(UNIT))
        finally:
            os.close(handle)


def until_full(act):
    """An act again and again, each time with another number, until it finds no room."""
    for number in count():
        try:
            act(number)
        except OSError as error:
            if error.errno != errno.ENOSPC:
                raise
            return


def mount_small(place):
    """A small disk over a directory, which this process and its children alone see."""
    passed(LIBRARY.unshare(NEW_NAMESPACE), -1)
    passed(LIBRARY.mount(b"none", b"/", None, ALL_PRIVATE, None), -1)
    passed(LIBRARY.mount(b"none", bytes(place), b"tmpfs", 0, SMALL_DISK), -1)


def passed(given, failure):
    if given == failure:
        raise OSError(ctypes.get_errno(), "failed")
    return given

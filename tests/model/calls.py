"""The bytes of calls, for whoever makes lists of events. No value is judged, so that wrong ones can be written too."""

from . import rules
from .rules import ADDRESS, ID, put


def create(mode, path):
    return bytes([rules.CREATE, mode]) + path


def mkdir(mode, path):
    return bytes([rules.MKDIR, mode]) + path


def chmod(mode, path):
    return bytes([rules.CHMOD, mode]) + path


def open_(rights, path):
    return bytes([rules.OPEN, rights]) + path


def close(handle):
    return bytes([rules.CLOSE]) + put(handle, ID)


def seek(handle, position):
    return bytes([rules.SEEK]) + put(handle, ID) + put(position, 8)


def read(handle, count):
    return bytes([rules.READ]) + put(handle, ID) + put(count, 4)


def write(handle, data):
    return bytes([rules.WRITE]) + put(handle, ID) + data


def truncate(handle, size):
    return bytes([rules.TRUNCATE]) + put(handle, ID) + put(size, 8)


def remove(path):
    return bytes([rules.REMOVE]) + path


def rmdir(path):
    return bytes([rules.RMDIR]) + path


def readdir(path):
    return bytes([rules.READDIR]) + path


def stat(path):
    return bytes([rules.STAT]) + path


def map_(length):
    return bytes([rules.MAP]) + put(length, 4)


def unmap(address):
    return bytes([rules.UNMAP]) + put(address, ADDRESS)


def rename(first, second, length=None):
    """With another length of the first path than it has, where one is given."""
    return bytes([rules.RENAME, len(first) if length is None else length]) + first + second

"""The rules that need no tables: limits, nodes, the forms of calls and paths, the bytes of requests and replies.

They stand in the order of SPECIFICATION 2 to 5.
"""

from dataclasses import dataclass, field

# SPECIFICATION 2, 3
ID = 4  # the width of an id, a handle and a parent
FILE, DIRECTORY = 1, 2
READ_BIT, WRITE_BIT, SEARCH_BIT = 4, 2, 1
MAX_MODE = 7
MAX_NODES = 256
MAX_OPEN = 32
MAX_PAGES = 1024
PAGE = 1024
MAX_SIZE = 65_536
MAX_PATH = 255
MAX_NAME = 32
UNIT = 4096  # maps begin and end at multiples of it
MAX_MAP = 65_536
MAX_MAPS = 16
ADDRESS = 8  # the width of an address
SPACE = 1 << 8 * ADDRESS  # the first address that there is not

# SPECIFICATION 4
(
    CREATE, MKDIR, OPEN, CLOSE, SEEK, READ, WRITE, TRUNCATE, REMOVE, RMDIR, CHMOD, READDIR, STAT, MAP, UNMAP, RENAME,
) = range(1, 17)
# what a read-only guard takes, beside an open with the right to read alone
READ_ONLY_KINDS = CLOSE, SEEK, READ, READDIR, STAT
READ_RIGHT, WRITE_RIGHT = 1, 2
MAX_COUNT = 4096

# SPECIFICATION 5, 6.2
MAX_DESCRIPTOR = 1023
NO_SPACE = -28  # the status of a full disk
ANSWER = (MAX_NODES - 1) * (ID + 1 + 1 + MAX_NAME)  # the longest listing: 9,690
REQUEST = 1 + 4 + 4 + 4 + PAGE  # a store: 1,037
REPLY = ADDRESS + MAX_MAP  # the longest right reply: that to the largest map, 65,544


def put(number, width):
    """A field: little-endian, a negative number in two's complement."""
    return number.to_bytes(width, "little", signed=number < 0)


def unsigned(data):
    return int.from_bytes(data, "little")


def signed(data):
    return int.from_bytes(data, "little", signed=True)


@dataclass
class Node:
    """A node; `pages` has what is kept of each page that the size needs."""

    id: int
    parent: int
    kind: int
    mode: int
    size: int
    name: bytes
    pages: list = field(default_factory=list)


def root():
    return Node(id=1, parent=0, kind=DIRECTORY, mode=7, size=0, name=b"")


def pages_of(size):
    """Just the pages that a size needs."""
    return (size + PAGE - 1) // PAGE


def pages_between(start, end):
    """The pages of the bytes from start up to end, in rising order."""
    return range(start // PAGE, pages_of(end)) if start < end else range(0)


def is_name(name):
    """A component's form; its length is judged apart, since it has a number of its own (36)."""
    return name not in (b"", b".", b"..") and 0 not in name and b"/" not in name


def read_path(path):
    """A path's components, or None where its form is wrong."""
    if path == b"/":
        return ()
    first, *names = path.split(b"/")
    return tuple(names) if first == b"" and names and all(map(is_name, names)) else None


def split_paths(data):
    """A rename's two paths, the first behind its length; where that passes the end, nothing is left for the second."""
    end = 1 + data[0] if data else 0
    return data[1:end], data[end:]


def is_long(path):
    return len(path) > MAX_PATH or any(len(name) > MAX_NAME for name in path.split(b"/"))


FIELDS = {
    CREATE: ("mode", "path"),
    MKDIR: ("mode", "path"),
    CHMOD: ("mode", "path"),
    OPEN: ("rights", "path"),
    CLOSE: ("handle",),
    SEEK: ("handle", "position"),
    READ: ("handle", "count"),
    WRITE: ("handle", "data"),
    TRUNCATE: ("handle", "size"),
    REMOVE: ("path",),
    RMDIR: ("path",),
    READDIR: ("path",),
    STAT: ("path",),
    MAP: ("length",),
    UNMAP: ("address",),
    RENAME: ("both",),
}
WIDTHS = {  # others take the rest
    "mode": 1, "rights": 1, "handle": ID, "position": 8, "count": 4, "size": 8, "length": 4, "address": ADDRESS,
}
FORMS = {
    "mode": lambda mode: mode <= MAX_MODE,
    "rights": lambda rights: 1 <= rights <= 3,
    "count": lambda count: count <= MAX_COUNT,
    "data": lambda data: len(data) <= MAX_COUNT,
    "path": lambda path: read_path(path) is not None,
    "both": lambda both: None not in map(read_path, split_paths(both)),
    "length": lambda length: UNIT <= length <= MAX_MAP and length % UNIT == 0,
}


@dataclass(frozen=True)
class ParsedCall:
    """A call of the right form: its bytes as they came, and those fields that its kind has."""

    raw: bytes
    mode: int = 0
    rights: int = 0
    path: bytes = b""
    handle: int = 0
    position: int = 0
    count: int = 0
    size: int = 0
    data: bytes = b""
    length: int = 0
    address: int = 0
    both: bytes = b""

    @property
    def kind(self):
        return self.raw[0]

    @property
    def names(self):
        return read_path(self.path)

    @property
    def paths(self):
        return split_paths(self.both) if self.kind == RENAME else (self.path,)


def read_call(raw):
    """The call in these bytes, or None where its form is wrong: one kind byte, then exactly its fields."""
    if not raw or raw[0] not in FIELDS:
        return None
    values, rest = {}, raw[1:]
    for name in FIELDS[raw[0]]:
        width = WIDTHS.get(name, len(rest))
        if len(rest) < width:
            return None
        values[name] = unsigned(rest[:width]) if name in WIDTHS else rest
        rest = rest[width:]
    right = all(FORMS[name](value) for name, value in values.items() if name in FORMS)
    return ParsedCall(raw, **values) if right and not rest else None


def is_read_only(call):
    """Whether a read-only guard takes a call of the right form."""
    return call.rights == READ_RIGHT if call.kind == OPEN else call.kind in READ_ONLY_KINDS


def covers(mode, rights):
    """Read needs 4, write needs 2."""
    reads = not rights & READ_RIGHT or mode & READ_BIT
    writes = not rights & WRITE_RIGHT or mode & WRITE_BIT
    return bool(reads and writes)


def close_request(descriptor):
    return bytes([CLOSE]) + put(descriptor, 4)


def fetch_request(descriptor, page):
    return bytes([READ]) + put(descriptor, 4) + put(page, 4)


def store_request(descriptor, page, size, data):
    return bytes([WRITE]) + put(descriptor, 4) + put(page, 4) + put(size, 4) + data


def cut_request(descriptor, size):
    return bytes([TRUNCATE]) + put(descriptor, 4) + put(size, 4)


def is_overwritten(page, old_size, start, end):
    """Whether a write from start to end leaves no byte of a page below the old end: it need not be fetched."""
    first, last = page * PAGE, min((page + 1) * PAGE, old_size)
    return first >= last or (start <= first and last <= end)


def overlay(page, at, data):
    """A page with data put over it, `at` counted from the page's start and perhaps before it."""
    first, last = max(at, 0), min(at + len(data), PAGE)
    return page[:first] + data[first - at : last - at] + page[last:]


def entry(node):
    """A node in a listing."""
    return put(node.id, ID) + bytes([node.kind, len(node.name)]) + node.name


def split_listing(reply):
    """A listing's entries; of one that is cut short what is there, which is nobody's entry."""
    entries, at = [], 0
    while at < len(reply):
        length = ID + 2 + reply[at + ID + 1] if len(reply) > at + ID + 1 else len(reply)
        entries.append(reply[at : at + length])
        at += length
    return entries


def overlap(one, one_length, other, other_length):
    """Whether two maps have a byte in common; where one ends the other may begin."""
    return one < other + other_length and other < one + one_length


def stat_reply(node):
    return put(node.id, ID) + bytes([node.kind, node.mode]) + put(node.size, 4)

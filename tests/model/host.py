"""An honest host: it holds the reference tree itself, obeys every request and replies truly. Its disk may be full for
a new node, a write's page or a growth: that is its reply then, and `undo` leaves everything as it was.

It is written apart from the machine, over directories of named entries and the bytes of files. What the requirements
leave to a host, it chooses by the random numbers it is given: a new id, a descriptor, the order of a listing, a map's
address.
"""

from copy import deepcopy
from dataclasses import dataclass, field

from . import rules
from .rules import ADDRESS, DIRECTORY, FILE, ID, MAX_DESCRIPTOR, NO_SPACE, PAGE, SPACE, UNIT, put, unsigned


@dataclass
class Entry:
    """A file with its bytes, or a directory with its entries by name."""

    id: int
    kind: int
    mode: int
    data: bytearray = field(default_factory=bytearray)
    entries: dict = field(default_factory=dict)

    def page(self, index):
        return bytes(self.data[index * PAGE : (index + 1) * PAGE]).ljust(PAGE, b"\0")

    def everything(self):
        """The entry and all below it."""
        return [self, *(below for entry in self.entries.values() for below in entry.everything())]


def zero_tree(nodes):
    """The tree of a sound image's nodes, with zeros in its files."""
    entries = {node.id: Entry(node.id, node.kind, node.mode, bytearray(node.size)) for node in nodes}
    for node in nodes[1:]:
        entries[node.parent].entries[node.name] = entries[node.id]
    return entries[nodes[0].id]


def going_back(file):
    """What gives a file its bytes of now again."""
    data = bytearray(file.data)
    return lambda: setattr(file, "data", data)


class Host:
    strange_ids = [0xFFFF_FFFF, 0xFFFF_FFE5, 0x0100_0000]

    def __init__(self, random):
        self.random = random
        self.root = Entry(id=1, kind=DIRECTORY, mode=7)
        self.open_files = {}
        self.maps = {}
        self.saves = {}
        self.undo = None  # takes back a request that may find the disk full

    def reply(self, request):
        """Obeys a request and gives the true reply."""
        return getattr(self, REQUESTS[request[0]])(request[1:])

    def saved(self, digest):
        """Keeps the whole tree: a load may go back to it."""
        self.saves[digest] = deepcopy(self.root)

    def loaded(self, digest, nodes):
        """Goes back to a save; an image that no save gave is taken to be of files of zeros."""
        self.root = deepcopy(self.saves[digest]) if digest in self.saves else zero_tree(nodes)

    # paths

    def find(self, path):
        entry = self.root
        for name in filter(None, path.split(b"/")):
            entry = entry.entries[name]
        return entry

    def split(self, path):
        """The directory of a path's last component, and that component."""
        directory, _, name = path.rpartition(b"/")
        return self.find(directory), name

    # what a host may choose

    def new_id(self):
        held = {entry.id for entry in self.root.everything()}
        usual = next(id for id in range(2, len(held) + 2) if id not in held)
        unusual = [*self.strange_ids, self.random.randrange(1, 1 << 8 * ID)]
        id = self.random.choice(unusual) if self.random.random() < 0.2 else usual
        return usual if id in held or put(id, ID) == put(NO_SPACE, ID) else id

    def new_descriptor(self):
        free = [descriptor for descriptor in range(MAX_DESCRIPTOR + 1) if descriptor not in self.open_files]
        return self.random.choice([free[0], free[0], free[-1], self.random.choice(free)])

    def new_address(self, length):
        """Room that no map has: the first that there is, just above or below a map, at the top, or anywhere."""
        above = [address + room for address, room in self.maps.items()]
        below = [address - length for address in self.maps]
        anywhere = [UNIT * self.random.randrange(1, 1 << bits) for bits in (8, 20, 36, 52)]
        first = next(address for address in sorted([UNIT, *above]) if self.is_free(address, length))
        choices = [first, *(address for address in (*above, *below, SPACE - length) if self.is_free(address, length))]
        strange = [address for address in anywhere if self.is_free(address, length)]
        return self.random.choice([*choices, *strange])

    def is_free(self, address, length):
        ends = address + length
        return UNIT <= address and ends <= SPACE and all(
            ends <= other or other + room <= address for other, room in self.maps.items()
        )

    # requests

    def add(self, kind, fields):
        directory, name = self.split(fields[1:])
        entry = Entry(self.new_id(), kind, mode=fields[0])
        directory.entries[name] = entry
        self.undo = lambda: directory.entries.pop(name)
        return put(entry.id, ID)

    def create(self, fields):
        return self.add(FILE, fields)

    def mkdir(self, fields):
        return self.add(DIRECTORY, fields)

    def open(self, fields):
        descriptor = self.new_descriptor()
        self.open_files[descriptor] = self.find(fields[1:])
        return put(descriptor, 4)

    def close(self, fields):
        del self.open_files[unsigned(fields)]
        return put(0, 4)

    def fetch(self, fields):
        return self.open_files[unsigned(fields[:4])].page(unsigned(fields[4:]))

    def store(self, fields):
        descriptor, page, size = (unsigned(fields[at : at + 4]) for at in (0, 4, 8))
        file = self.open_files[descriptor]
        self.undo = going_back(file)
        file.data[page * PAGE : (page + 1) * PAGE] = fields[12:]
        file.data = file.data[:size]
        return put(PAGE, 4)

    def cut(self, fields):
        file, size = self.open_files[unsigned(fields[:4])], unsigned(fields[4:])
        self.undo = going_back(file)
        file.data = file.data[:size].ljust(size, b"\0")
        return put(0, 4)

    def remove(self, path):
        directory, name = self.split(path)
        del directory.entries[name]
        return put(0, 4)

    def chmod(self, fields):
        self.find(fields[1:]).mode = fields[0]
        return put(0, 4)

    def rename(self, fields):
        first, second = rules.split_paths(fields)
        (directory, name), (new_directory, new_name) = self.split(first), self.split(second)
        new_directory.entries[new_name] = directory.entries.pop(name)
        return put(0, 4)

    def map(self, fields):
        length = unsigned(fields)
        address = self.new_address(length)
        self.maps[address] = length
        return put(address, ADDRESS) + bytes(length)

    def unmap(self, fields):
        del self.maps[unsigned(fields)]
        return put(0, 4)

    def readdir(self, path):
        return self.readdir_of(self.find(path))

    def readdir_of(self, directory):
        entries = [
            put(entry.id, ID) + bytes([entry.kind, len(name)]) + name for name, entry in directory.entries.items()
        ]
        self.random.shuffle(entries)
        return b"".join(entries)

    def stat(self, path):
        entry = self.find(path)
        return put(entry.id, ID) + bytes([entry.kind, entry.mode]) + put(len(entry.data), 4)


REQUESTS = {
    rules.CREATE: "create", rules.MKDIR: "mkdir", rules.OPEN: "open", rules.CLOSE: "close", rules.READ: "fetch",
    rules.WRITE: "store", rules.TRUNCATE: "cut", rules.REMOVE: "remove", rules.RMDIR: "remove",
    rules.CHMOD: "chmod", rules.READDIR: "readdir", rules.STAT: "stat", rules.MAP: "map", rules.UNMAP: "unmap",
    rules.RENAME: "rename",
}

#!/usr/bin/env python3
"""A small host: its tree is in memory, its saves are in one file. python3 host.py [--budget BYTES] DIRECTORY

It speaks the wire form of docs/INTEGRATION.md, 9, and is written apart from the model and from examples/host. With a
budget its disk is full when its nodes, of ROOM bytes each, and the bytes of files would take more.
"""

import os
import pickle
import sys

PAGE = 1024
UNIT, SPACE = 4096, 1 << 64
FILE, DIRECTORY = 1, 2
CREATE, MKDIR, OPEN, CLOSE, _, FETCH, STORE, CUT, REMOVE, RMDIR, CHMOD, READDIR, STAT, MAP, UNMAP, RENAME = range(1, 17)
REQUEST, SYNC, START = 1, 2, 3
ROOM, FULL = 200, 0xFFFF_FFE4


def number(data):
    return int.from_bytes(data, "little")


def four(value):
    return value.to_bytes(4, "little")


class Node:
    def __init__(self, id, kind, mode):
        self.id, self.kind, self.mode = id, kind, mode
        self.data = bytearray()


class Full(Exception):
    """There is no room; nothing has been done."""


class Host:
    budget = 0  # no bound

    def __init__(self, place):
        self.file = os.path.join(place, "saves")
        self.saves = {}
        if os.path.exists(self.file):
            with open(self.file, "rb") as file:
                self.saves = pickle.load(file)

    # a host's life

    def start(self, digest):
        """The tree of a save, or the root alone; no file is open, and no map lives."""
        self.nodes, self.next = pickle.loads(self.saves[digest]) if digest else ({b"/": Node(1, DIRECTORY, 7)}, 2)
        self.files = {}
        self.maps = {}
        self.last = digest
        return b""

    def sync(self, digest):
        """This save and the one before it are kept: a client that dies now goes back to that one."""
        kept = {self.last: self.saves[self.last]} if self.last else {}
        self.saves = {**kept, digest: pickle.dumps((self.nodes, self.next))}
        with open(self.file + ".new", "wb") as file:
            pickle.dump(self.saves, file)
            file.flush()
            os.fsync(file.fileno())
        os.replace(self.file + ".new", self.file)
        self.last = digest
        return b""

    def request(self, request):
        """What cannot be done is not answered as done: the status -2 is no right reply to anything that may fail
        here.
        """
        try:
            return REQUESTS[request[0]](self, request[1:])
        except Full:
            return four(FULL)
        except KeyError:
            return four(0xFFFF_FFFE)

    def take(self, more):
        """Room for so many bytes more, before anything is done with them."""
        taken = sum(ROOM + len(node.data) for node in self.nodes.values())
        if self.budget and more > 0 and taken + more > self.budget:
            raise Full

    # requests by path

    def make(self, path, kind, mode):
        self.take(ROOM)
        node = self.nodes[path] = Node(self.next, kind, mode)
        self.next += 1
        return four(node.id)

    def create(self, fields):
        return self.make(fields[1:], FILE, fields[0])

    def mkdir(self, fields):
        return self.make(fields[1:], DIRECTORY, fields[0])

    def open(self, fields):
        descriptor = min(set(range(len(self.files) + 1)) - set(self.files))
        self.files[descriptor] = self.nodes[fields[1:]]
        return four(descriptor)

    def remove(self, path):
        del self.nodes[path]
        return four(0)

    def chmod(self, fields):
        self.nodes[fields[1:]].mode = fields[0]
        return four(0)

    def rename(self, fields):
        """The node and all beneath it; open files are of nodes, not of paths, and go on."""
        old, new = fields[1 : 1 + fields[0]], fields[1 + fields[0] :]
        self.nodes[new] = self.nodes.pop(old)
        for path in [path for path in self.nodes if path.startswith(old + b"/")]:
            self.nodes[new + path[len(old) :]] = self.nodes.pop(path)
        return four(0)

    def readdir(self, path):
        above = path.rstrip(b"/") + b"/"
        names = {other[len(above) :]: node for other, node in self.nodes.items() if other.startswith(above)}
        return b"".join(entry(name, node) for name, node in names.items() if name and b"/" not in name)

    def stat(self, path):
        node = self.nodes[path]
        return four(node.id) + bytes([node.kind, node.mode]) + four(len(node.data))

    # requests by descriptor

    def close(self, fields):
        del self.files[number(fields)]
        return four(0)

    def fetch(self, fields):
        node, page = self.files[number(fields[:4])], number(fields[4:])
        return bytes(node.data[page * PAGE : (page + 1) * PAGE]).ljust(PAGE, b"\0")

    def store(self, fields):
        node, page, size = self.files[number(fields[:4])], number(fields[4:8]), number(fields[8:12])
        self.take(size - len(node.data))
        node.data[page * PAGE : (page + 1) * PAGE] = fields[12:]
        del node.data[size:]
        return four(PAGE)

    def cut(self, fields):
        node, size = self.files[number(fields[:4])], number(fields[4:])
        self.take(size - len(node.data))
        node.data = node.data[:size].ljust(size, b"\0")
        return four(0)


    # maps

    def map(self, fields):
        """From the end of the space down, where there is room first."""
        length, address = number(fields), SPACE - number(fields)
        while any(address < at + len(memory) and at < address + length for at, memory in self.maps.items()):
            address -= UNIT
        self.maps[address] = bytes(length)
        return address.to_bytes(8, "little") + self.maps[address]

    def unmap(self, fields):
        del self.maps[number(fields)]
        return four(0)


def entry(name, node):
    return four(node.id) + bytes([node.kind, len(name)]) + name


REQUESTS = {
    CREATE: Host.create, MKDIR: Host.mkdir, OPEN: Host.open, CLOSE: Host.close, FETCH: Host.fetch, STORE: Host.store,
    CUT: Host.cut, REMOVE: Host.remove, RMDIR: Host.remove, CHMOD: Host.chmod, READDIR: Host.readdir, STAT: Host.stat,
    MAP: Host.map, UNMAP: Host.unmap, RENAME: Host.rename,
}
FRAMES = {REQUEST: Host.request, SYNC: Host.sync, START: Host.start}


def main():
    host = Host(sys.argv[-1])
    if sys.argv[1] == "--budget":
        host.budget = int(sys.argv[2])
    while length := number(sys.stdin.buffer.read(4)):
        frame = sys.stdin.buffer.read(length)
        reply = FRAMES[frame[0]](host, frame[1:])
        sys.stdout.buffer.write(four(len(reply)) + reply)
        sys.stdout.buffer.flush()


if __name__ == "__main__":
    main()

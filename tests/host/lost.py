"""What a power loss leaves of a directory: of what was not synced, anything.

The program's record (durable.c) has what the disk has for certain, by inode. What differs from it now may be there or
not: each name by itself, and of each file's bytes all, none, or some in front.
"""

import os
import shutil


class Disk:
    def __init__(self, place, durable, random):
        self.place, self.durable, self.random = place, durable, random
        self.now = {}  # by inode: bytes, or {name: (inode, whether that is a directory)}
        self.note(place)

    def note(self, path):
        inode = path.stat().st_ino
        if path.is_dir():
            self.now[inode] = {below.name: self.note(below) for below in path.iterdir()}
        else:
            self.now[inode] = path.read_bytes()
        return inode, path.is_dir()

    def certain_bytes(self, inode):
        record = self.durable / str(inode)
        return record.read_bytes() if record.exists() else b""

    def certain_names(self, inode):
        entries = (entry.split(b" ", 2) for entry in self.certain_bytes(inode).split(b"\0")[:-1])
        return {os.fsdecode(name): (int(inode), kind == b"d") for inode, kind, name in entries}

    def left_names(self, inode):
        """Each name with what it led to, or leads to, or none of it."""
        old, new = self.certain_names(inode), self.now.get(inode, {})
        for name in sorted({*old, *new}):
            chosen = self.random.choice([old, new]).get(name)
            if chosen is not None:
                yield name, chosen

    def left_bytes(self, inode):
        old = self.certain_bytes(inode)
        new = self.now.get(inode, old)
        some = self.random.randrange(len(new) + 1)
        lost = [old, new, new[:some], new[:some] + old[some:], bytes(len(new))]
        return new if new == old else self.random.choice(lost)

    def left(self, inode, is_directory):
        if is_directory:
            return {name: self.left(*below) for name, below in self.left_names(inode)}
        return self.left_bytes(inode)

    def lose(self):
        """The place as it is found when power is back."""
        left = self.left(self.place.stat().st_ino, True)
        shutil.rmtree(self.place)
        put(self.place, left)


def put(path, what):
    if isinstance(what, dict):
        path.mkdir()
        for name, below in what.items():
            put(path / name, below)
    else:
        path.write_bytes(what)

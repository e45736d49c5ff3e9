"""Lists from a seed: the model's generator as an honest client, with saves and restarts in between.

Which tree a list starts in and which restart comes first goes by the seed's place among TURNS, so that so many seeds on
end meet them all. Small trees come first: a fault that they show is told in a few calls.
"""

from random import Random

from host.honest import HonestGenerator
from model import calls
from model.edges import crowd, deep, files
from model.events import Done
from model.generate import WORLDS, build
from model.rules import (
    CHMOD, CLOSE, CREATE, MAP, MAX_COUNT, MAX_MAP, MAX_MAPS, MAX_OPEN, MAX_PATH, MKDIR, OPEN, PAGE, READDIR, READ_RIGHT,
    REMOVE, RENAME, RMDIR, STAT, TRUNCATE, UNIT, UNMAP, WRITE,
)

from .client import RESTARTS, WITHIN_REQUEST, Restart, Saved

SMALL = 7  # turns that start in a small tree
TREES = [*WORLDS, (files(*[3] * MAX_OPEN), MAX_OPEN, [OPEN, CLOSE]), (crowd(), 0, [READDIR, STAT])]
TURNS = SMALL + len(TREES)
CALLS = 40  # between two restarts
LOOKS = 12  # nodes that are looked at after a restart
EDGES = [(0, PAGE - 1), (PAGE - 1, 1), (PAGE, 1), (1, PAGE), (PAGE, 2 * PAGE), (2 * PAGE, MAX_COUNT)]
DELAY = 0.002  # a kill comes at most so many seconds after its frame


class List:
    def __init__(self, client, seed):
        self.client, self.turn = client, seed % TURNS
        self.random = Random(seed)
        self.generator = HonestGenerator(self.random, client)
        self.generator.bad_form = 0

    def run(self):
        self.client.begin()
        self.enter()
        self.client.do(calls.readdir(b"/"))  # a full directory, as long as it is full
        hows = list(RESTARTS)
        first = hows[self.turn % len(hows)]
        for how in (first, *self.random.sample(hows, 2)):
            self.work(self.random.randrange(CALLS))
            if how is not first or self.turn % 3:
                self.client.perform(Saved())
            self.work(self.random.randrange(CALLS))
            self.client.perform(self.restart(how, at_once=how is first))
            self.look(self.random.sample(self.paths(), min(LOOKS, len(self.client.guard.nodes))))
        self.work(CALLS)
        self.client.perform(Saved())
        self.look(self.paths(), unlock=True)

    def enter(self):
        if self.turn >= SMALL:
            self.generator.enter(*TREES[self.turn - SMALL])
        elif self.turn > 0:
            self.generator.make_files()
            self.client.do(calls.rename(b"/a/d", b"/b/d"))  # to a directory that is younger
        else:
            self.tour()

    def tour(self):
        """What is rare elsewhere: each page edge, as many maps as there may be, a file that nobody may open again,
        renames of each sort, a path as long as can be, a name of any bytes.
        """
        do, handle = self.client.do, self.client.do(calls.create(7, b"/a")).number
        do(calls.open_(3, b"/a"))
        do(calls.chmod(0, b"/a"))
        for start, count in EDGES:
            do(calls.seek(handle, start))
            do(calls.write(handle, self.random.randbytes(count)))
            do(calls.seek(handle, start))
            do(calls.read(handle, count))
        for size in (3 * PAGE - 1, 2 * PAGE, PAGE + 1, 0):
            do(calls.truncate(handle, size))
            do(calls.stat(b"/a"))
            do(calls.seek(handle, size))
            do(calls.write(handle, b"again"))
        for size in (700, PAGE, 3 * PAGE + 1, 10, 0, 2 * PAGE):
            do(calls.truncate(handle, size))
            do(calls.stat(b"/a"))
            do(calls.seek(handle, 0))
            do(calls.read(handle, MAX_COUNT))
        self.tour_of_maps()
        self.tour_of_renames()
        build(self.client, deep(MAX_PATH - 4))
        deepest = self.paths()[-1]
        do(calls.create(7, deepest + b"/\xff\n\x01"))
        do(calls.rename(deepest + b"/\xff\n\x01", deepest + b"/\xff\n\x02"))

    def tour_of_maps(self):
        """Sixteen, of which the first, the last and one between make room for others; some live on."""
        do, maps = self.client.do, self.client.guard.maps
        for units in range(1, MAX_MAPS):
            do(calls.map_(units * UNIT))
        do(calls.map_(MAX_MAP))
        for place in (0, -1, MAX_MAPS // 2):
            do(calls.unmap(list(maps)[place]))
        for length in (UNIT, MAX_MAP, 2 * UNIT):
            do(calls.map_(length))
        for address in list(maps)[::2]:
            do(calls.unmap(address))

    def tour_of_renames(self):
        """A tree with an open file goes beneath a directory that is younger; the file goes on, and out of the tree
        again, to the path that the tree had. Beside it a name that begins as the tree's does.
        """
        do = self.client.do
        for path in (b"/r", b"/r/s", b"/rr", b"/t"):
            do(calls.mkdir(5 if path == b"/r/s" else 7, path))
        do(calls.chmod(7, b"/r/s"))
        handle = do(calls.create(6, b"/r/s/f")).number
        do(calls.open_(3, b"/r/s/f"))
        do(calls.write(handle, self.random.randbytes(PAGE + 5)))
        for path, new_path in (
            (b"/r", b"/t/u"), (b"/rr", b"/t/rr"), (b"/t/u/s/f", b"/t/u/s/g"), (b"/t/u/s/g", b"/t/u/s/g"),
            (b"/t/u/s/g", b"/r"),
        ):
            do(calls.rename(path, new_path))
            do(calls.seek(handle, PAGE))
            do(calls.write(handle, b"on"))
            self.look_at_names(b"/", b"/t", b"/t/u", b"/t/u/s")
            do(calls.stat(new_path))
        do(calls.close(handle))
        self.read(b"/r")
        do(calls.rename(b"/t", b"/v"))

    def look_at_names(self, *paths):
        for path in paths:
            self.client.do(calls.readdir(path))

    def work(self, count):
        for _ in range(count):
            self.generator.event()

    def restart(self, how, at_once):
        """A restart; within a request, the call's first at once, since a call may have no second."""
        delay = self.random.random() * DELAY if "within" in how else 0
        if how != WITHIN_REQUEST:
            return Restart(how, delay)
        call = self.changing_call()
        which = 1 if call[0] in (WRITE, TRUNCATE) and not at_once else 0
        return Restart(how, delay, self.client.kept(call), which)

    def changing_call(self):
        """A call that changes something at the host; the root's mode where nothing else comes."""
        for _ in range(20):
            kind = self.random.choice(
                [CREATE, MKDIR, WRITE, WRITE, WRITE, TRUNCATE, REMOVE, RMDIR, CHMOD, MAP, UNMAP, RENAME, RENAME]
            )
            call = self.generator.makers[kind](self.generator, kind)
            if self.client.would_ask(call):
                return call
        return calls.chmod(7, b"/")

    def paths(self):
        return [self.client.path_of(node) for node in self.client.guard.nodes]

    def look(self, paths, unlock=False):
        """All that a host knows of these nodes: what it says of them, their children, every byte; unlocked, whatever
        their modes.
        """
        for path in paths:
            self.client.do(calls.stat(path))
            if unlock:
                self.client.do(calls.chmod(7, path))
            self.client.do(calls.readdir(path))
            self.read(path)

    def read(self, path):
        opened = self.client.do(calls.open_(READ_RIGHT, path))
        if isinstance(opened, Done):
            while self.client.do(calls.read(opened.number, MAX_COUNT)).number:
                pass
            self.client.do(calls.close(opened.number))

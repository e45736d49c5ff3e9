"""The host killed at random, and power lost with what was not synced; the client starts again from its last image.

    python3 -m host.killed PROGRAM PLACE LISTS      from tests/; PROGRAM is drive.c's, PLACE a directory to fill

A list works through the archive and the real host, saves, works on and is killed: between two requests or within one,
before or after a change of the disk, in the middle of a page. A new process loads the image, which must be done. Then
every node is looked at and read, and the list goes on: each outcome is what the tree of the save gives, or a stop.
After a stop the next look begins with a new load.

In every other three lists a system call finds the disk full now and then, so that the host is killed as it undoes its
part too. In a third of the lists the machine loses power: what was not synced is there or not, of the tree and of the
host's table (lost.py). In a third a file is damaged. Unless one is, a node that no call has named since the save is
served: no stop.

Before the lists, what docs/INTEGRATION.md, 6, tells of a growing cut that was obeyed; that maps end with the host; and
a rename that is killed at each of its points, or loses power there: wherever its nodes are then, they have their ids,
modes and bytes.
"""

import errno
import shutil
import sys
from pathlib import Path
from random import Random

from model import calls
from model.rules import CHMOD, CREATE, DIRECTORY, MAX_COUNT, MAX_MAP, MAX_MAPS, MKDIR, PAGE, READ_RIGHT, REMOVE
from model.rules import RENAME, RMDIR, TRUNCATE, UNIT, WRITE, WRITE_RIGHT, unsigned

from .beside import Beside, Caught, Driver, Different, Killed, durable, in_model, on_disk
from .honest import HonestGenerator
from .lost import Disk

BEFORE, AFTER = 25, 40  # calls before the save, and after the restart
POINTS = 80  # the kill comes at one of so many moments
FULL = 0.4  # of the calls, where the disk fills up; one of so many system calls from then on finds it full:
CALLS = 6


KILLED, POWER_LOST, DAMAGED = range(3)
STOP_STAT = "6"


class Noted(Beside):
    """Which files and directories a call has changed, or would have, since the last save."""

    changed = frozenset()

    def send(self, event):
        kind = event.data[0] if event.data else 0
        if kind in (CREATE, MKDIR, CHMOD):
            self.changed |= {event.data[2:]}
        elif kind in (REMOVE, RMDIR):
            self.changed |= {event.data[1:]}
        elif kind in (WRITE, TRUNCATE):
            self.changed |= {node_path(self.guard.nodes, unsigned(event.data[1:5]))}
        elif kind == RENAME and len(event.data) > 1:
            self.changed |= self.renamed(event.data)
        return super().send(event)

    def renamed(self, call):
        """Both paths of a rename, and all beneath the first."""
        path, new_path = call[2 : 2 + call[1]], call[2 + call[1] :]
        paths = (node_path(self.guard.nodes, node.id) or b"/" for node in self.guard.nodes)
        return {path, new_path, *(below for below in paths if below.startswith(path + b"/"))}

    def save(self):
        super().save()
        self.changed = frozenset()


def node_path(nodes, id):
    """None where no node has this id."""
    found = {node.id: node for node in nodes}
    node, path = found.get(id), b""
    while node and node.parent:
        node, path = found[node.parent], b"/" + node.name + path
    return path or None


class List:
    def __init__(self, program, place, seed):
        self.program, self.place = program, place
        self.random = Random(seed)
        self.loss = seed % 3
        self.beside = Noted(Driver(program, place, record=self.loss == POWER_LOST))
        self.generator = HonestGenerator(self.random, self.beside)
        self.stops = self.looks = self.full = 0
        self.is_filled = seed // 3 % 2 == 1
        self.within = False

    def run(self):
        self.generator.start()
        self.work(BEFORE)
        self.beside.save()
        self.work_until_killed()
        if self.loss == DAMAGED:
            self.damage()
        if self.loss == POWER_LOST:
            Disk(self.place, durable(self.place), self.random).lose()
        self.start_again(Driver(self.program, self.place))
        self.changed = self.beside.changed
        for path, kind in self.random.sample(paths := self.paths(), len(paths)):
            self.look(path, kind)
        self.go_on()
        self.beside.driver.kill()

    def work(self, count):
        for _ in range(count):
            self.generator.event()

    def work_until_killed(self):
        """Killed at one of the host's changes of the disk; where the list has too few, between two requests."""
        self.beside.driver.send(f"k {self.random.randrange(1, POINTS)}")
        try:
            for _ in range(self.random.randrange(10, 60)):
                self.fill()
                self.work(1)
        except Killed:
            self.within = True
        except Caught:  # the disk was full where no call may end by that
            self.full += 1
        self.beside.driver.kill()

    def fill(self):
        """The disk is full at one of the next system calls, in some of the lists."""
        if self.is_filled and self.random.random() < FULL:
            self.full += self.beside.driver.send(f"n {self.random.randrange(1, CALLS)} 1 {errno.ENOSPC}") == ["0"]

    def damage(self):
        """A file of the disk loses its last bytes, or some in the middle."""
        files = sorted(path for path in (self.place / "tree").rglob("*") if path.is_file() and path.stat().st_size)
        if files:
            path = self.random.choice(files)
            data = bytearray(path.read_bytes())
            at = self.random.randrange(len(data))
            data[at:] = self.random.choice([b"", bytes(min(512, len(data) - at)) + data[at + 512 :]])
            path.write_bytes(data)

    def start_again(self, driver):
        self.beside.start_again(driver)

    def paths(self):
        nodes = self.generator.guard.nodes
        return [(self.generator.path_of(node), node.kind) for node in nodes]

    def look(self, path, kind):
        """All that the guard says of a node, as in the tree of the save."""
        self.looks += 1
        is_served = False  # but for its listing: a child may be new or gone
        try:
            self.beside.do(calls.stat(path))
            if kind != DIRECTORY:
                self.read(path)
            is_served = True
            if kind == DIRECTORY:
                self.beside.do(calls.readdir(path))
        except Caught:
            if not is_served and self.loss != DAMAGED and path not in self.changed:
                raise Different(f"{path} is as it was saved, and caught")
            self.stops += 1
            self.start_again(self.beside.driver)

    def read(self, path):
        """Every byte of a file that may be read."""
        opened = self.beside.do(calls.open_(READ_RIGHT, path))
        while str(opened).startswith("done") and self.beside.do(calls.read(opened.number, MAX_COUNT)).number:
            pass
        self.beside.close_all()

    def go_on(self):
        """The list goes on, up to a stop."""
        try:
            self.work(AFTER)
        except Caught:
            self.stops += 1


GROWTHS = [(0, 1), (700, 701), (700, PAGE), (PAGE, PAGE + 1), (700, 3000)]


def grown(program, place, size, more):
    """Killed after a growing cut: the size is caught, each page served, and the same truncation makes it right."""
    path = b"/a"
    beside = Beside(Driver(program, place))
    beside.do(calls.create(7, path))
    handle = beside.do(calls.open_(READ_RIGHT | WRITE_RIGHT, path)).number
    beside.do(calls.write(handle, b"x" * size))
    beside.save()
    beside.do(calls.open_(READ_RIGHT | WRITE_RIGHT, path))
    beside.do(calls.truncate(handle, more))
    beside.driver.kill()
    beside.start_again(Driver(program, place))
    try:
        beside.do(calls.stat(path))
        raise Different(f"grown from {size} to {more}: the size is not caught")
    except Caught as caught:
        if caught.args != (STOP_STAT,):
            raise Different(f"grown from {size} to {more}: caught with {caught}")
    beside.start_again(beside.driver)
    beside.do(calls.open_(READ_RIGHT | WRITE_RIGHT, path))
    beside.do(calls.read(handle, MAX_COUNT))
    beside.do(calls.truncate(handle, more))
    beside.do(calls.stat(path))
    beside.do(calls.read(handle, MAX_COUNT))
    beside.driver.kill()


OLD, NEW = b"/d", b"/f/g"


def renaming(program, place, record):
    """A directory with a tree, one of its files open, all of it saved."""
    beside = Beside(Driver(program, place, record=record))
    for call in (calls.mkdir(7, b"/f"), calls.mkdir(7, OLD), calls.mkdir(5, OLD + b"/e"), calls.create(6, OLD + b"/a")):
        beside.do(call)
    handle = beside.do(calls.open_(READ_RIGHT | WRITE_RIGHT, OLD + b"/a")).number
    beside.do(calls.write(handle, b"x" * 1500))
    beside.save()
    beside.do(calls.open_(READ_RIGHT, OLD + b"/a"))
    return beside


def nodes_below(nodes, top):
    """Those at a path and beneath it, by what is behind it."""
    return {path[len(top) :]: node for path, node in nodes.items() if path == top or path.startswith(top + b"/")}


def one_renamed(program, place, point, loses):
    """Killed at one point of a rename, or power lost there; where the nodes are then, and whether it was killed."""
    emptied(place)
    beside = renaming(program, place, record=loses is not None)
    right = nodes_below(in_model(beside.host), OLD)
    beside.driver.send(f"k {point}")
    killed = False
    try:
        beside.do(calls.rename(OLD, NEW))
    except Killed:
        killed = True
    beside.driver.kill()
    if loses is not None:
        Disk(place, durable(place), loses).lose()
    found = on_disk(place, stale_rows=True)
    at = [top for top in (OLD, NEW) if nodes_below(found, top)]
    if any(nodes_below(found, top) != right for top in at) or (loses is None and len(at) != 1):
        raise Different(f"killed at point {point} of a rename: the nodes are not as they were")
    if not killed and at != [NEW]:
        raise Different("a rename that was done is lost with power")
    look_after_rename(program, place, beside, at)
    return at, killed


def look_after_rename(program, place, beside, at):
    """The tree of the save is served as far as the disk has it; a node that is gone from its path is caught."""
    beside.start_again(Driver(program, place))
    for path in (OLD, OLD + b"/a", OLD + b"/e"):
        try:
            beside.do(calls.stat(path))
            if OLD not in at:
                raise Different(f"{path} is served, and gone")
        except Caught:
            if OLD in at:
                raise Different(f"{path} is as it was saved, and caught")
            beside.start_again(beside.driver)
    beside.driver.kill()


LOSSES = 4  # of power, at each point


def renamed(program, place):
    """How many points a rename has."""
    seen, point, killed = set(), 0, True
    while killed:
        point += 1
        at, killed = one_renamed(program, place, point, None)
        seen |= {*at}
        for seed in range(LOSSES):
            one_renamed(program, place, point, Random(LOSSES * point + seed))
    if seen != {OLD, NEW}:
        raise Different(f"a rename that is killed leaves its nodes at {seen} alone")
    return point - 1


def mapped(program, place):
    """A save with maps alive, then the end: none lives after it, and there is room for as many as may."""
    beside = Beside(Driver(program, place))
    address = beside.do(calls.map_(2 * UNIT)).number
    beside.do(calls.map_(MAX_MAP))
    beside.save()
    beside.load()
    beside.do(calls.unmap(address))
    beside.do(calls.unmap(address))
    beside.driver.kill()
    beside.start_again(Driver(program, place))
    for _ in range(MAX_MAPS + 1):
        beside.do(calls.map_(MAX_MAP))
    for address in list(beside.guard.maps):
        beside.do(calls.unmap(address))
    beside.do(calls.map_(UNIT))
    beside.driver.kill()


def emptied(place):
    for old in (place, durable(place)):
        shutil.rmtree(old, ignore_errors=True)
    place.mkdir(parents=True)


def main():
    program, place, lists = sys.argv[1], Path(sys.argv[2]), int(sys.argv[3])
    for size, more in GROWTHS:
        emptied(place)
        grown(program, place, size, more)
    emptied(place)
    mapped(program, place)
    points = renamed(program, place)
    looks = stops = caught = within = full = 0
    for seed in range(lists):
        emptied(place)
        trial = List(program, place, seed)
        try:
            trial.run()
        except Exception:
            print(f"killed: seed {seed}")
            raise
        looks, stops = looks + trial.looks, stops + trial.stops
        caught, within, full = caught + (trial.stops > 0), within + trial.within, full + trial.full
    if not (0 < caught < lists and 0 < within < lists and full):
        seen = f"{caught} of {lists} lists saw a stop, {within} were killed within a request, {full} full disks met"
        raise Different(f"{seen}: nothing is shown by this")
    print(f"host: killed after {len(GROWTHS)} growing cuts, the size caught, each page served, the truncation done again")
    print(f"host: {MAX_MAPS} maps after a save, a load and a kill, and no more")
    print(f"host: a rename killed at each of {points} points, and power lost there: ids, modes and bytes as they were")
    print(
        f"host: killed in {lists} lists, within a request in {within}, after {full} full disks; each load done, "
        f"{looks} nodes looked at, {stops} stops in {caught} lists, nothing wrong served"
    )


if __name__ == "__main__":
    main()

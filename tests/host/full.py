"""The disk full at each system call of the host that may need room: the call ends, and the disk is as if the request
had never been.

    python3 -m host.full PROGRAM PLACE      from tests/; PROGRAM is drive.c's, PLACE a directory to fill

Each act below is done on a new disk, with the first such system call finding no room, the second, and so on; ENOSPC and
EDQUOT in turns. Where one call fails, a create, a mkdir, a write and a growth never stop the guard: they are refused 28
and the disk is as before, byte for byte, or, of a write, as far as its finished pages. Where all that follow fail too,
so that nothing can be undone, the guard stops or the disk is as before; it never goes on over a disk that is neither.
Afterwards everything is read, the act is done again with room, and the host is started again.

Before them the host's own budget of bytes, which is met to the byte.
"""

import errno
import shutil
import sys
from collections import Counter
from pathlib import Path

from model import calls
from model.rules import MAX_COUNT, PAGE, READ_RIGHT, WRITE_RIGHT

from .beside import REFUSED_FULL, Beside, Caught, Different, Driver, in_model, on_disk

BOTH = READ_RIGHT | WRITE_RIGHT
SIZE = 2 * PAGE + 700
DATA = bytes(range(256)) * 16
EVER = 1000  # calls: all that come
NODE = 256  # bytes that a node takes of a budget (host.h)
ROOMS = [0, 1, NODE - 1, NODE, PAGE - 1, PAGE, PAGE + 1, 2 * PAGE, MAX_COUNT - 1, MAX_COUNT]


def write(handle, at, count):
    return [calls.seek(handle, at), calls.write(handle, DATA[:count])]


# what a full disk may do to a call: end it; stop the guard; stop it where the node itself cannot be removed, at the
# first system call, and nothing later; or stop it, unless the node has its new name: that the old one is forgotten needs
# no room
ENDS, STOPS, REMOVES, RENAMES = range(4)

# the name, the calls with the file's handle, and what a full disk may do to the last of them
ACTS = [
    ("create", lambda handle: [calls.create(6, b"/d/new")], ENDS),
    ("mkdir", lambda handle: [calls.mkdir(7, b"/d/new")], ENDS),
    ("write within a page", lambda handle: write(handle, 100, 50), ENDS),
    ("write to the end of a page", lambda handle: write(handle, 100, PAGE - 100), ENDS),
    ("write at the end", lambda handle: write(handle, SIZE, 10), ENDS),
    ("write beyond the end", lambda handle: write(handle, SIZE - 10, 2 * PAGE), ENDS),
    ("write over all pages", lambda handle: write(handle, 0, MAX_COUNT), ENDS),
    ("write over an edge", lambda handle: write(handle, PAGE - 10, 20), ENDS),
    ("growth within the page", lambda handle: [calls.truncate(handle, SIZE + 1)], ENDS),
    ("growth over pages", lambda handle: [calls.truncate(handle, 9 * PAGE)], ENDS),
    ("remove", lambda handle: [calls.remove(b"/d/other")], REMOVES),
    ("rmdir", lambda handle: [calls.rmdir(b"/d/empty")], REMOVES),
    ("rename", lambda handle: [calls.rename(b"/d/other", b"/new")], RENAMES),
    ("rename of a directory", lambda handle: [calls.rename(b"/d/empty", b"/d/new")], RENAMES),
    ("chmod", lambda handle: [calls.chmod(4, b"/d/other")], STOPS),
    ("truncate within a page", lambda handle: [calls.truncate(handle, 100)], STOPS),
    ("truncate to an edge", lambda handle: [calls.truncate(handle, PAGE)], STOPS),
]


class Trial:
    """A disk with a few nodes, all of them saved, and one file open."""

    def __init__(self, program, place):
        shutil.rmtree(place, ignore_errors=True)
        place.mkdir(parents=True)
        self.place, self.beside = place, Beside(Driver(program, place))
        do = self.beside.do
        for call in (calls.mkdir(7, b"/d"), calls.create(7, b"/d/a"), calls.create(7, b"/d/other"),
                     calls.mkdir(7, b"/d/empty")):
            do(call)
        self.handle = do(calls.open_(BOTH, b"/d/a")).number
        do(calls.write(self.handle, bytes(reversed(DATA))[:SIZE]))
        self.beside.save()
        do(calls.open_(BOTH, b"/d/a"))

    def fill(self, words=""):
        """Arms the full disk, or takes it away; how many calls were still to find it."""
        return int(self.beside.driver.send(f"n {words}")[0])

    def act(self, act, words):
        """The outcome of an act's last call, with the disk full at some system call of it; whether one was met."""
        *before, last = act(self.handle)
        for call in before:
            self.beside.do(call)
        self.fill(words)
        try:
            came = str(self.beside.do(last)).split(" ")
        except Caught:
            came = ["stopped"]
        return came, self.fill() < int(words.split(" ")[1])

    def compare(self, what):
        """The disk has the model's tree, whose host has done nothing where the disk was full."""
        if in_model(self.beside.host) != on_disk(self.place, stale_rows=True):
            raise Different(f"{what}: the disk is not as it was before the request")

    def compare_nodes(self, what):
        """Whatever their paths, all nodes are on the disk, with ids, modes and bytes."""
        if Counter(in_model(self.beside.host).values()) != Counter(on_disk(self.place, stale_rows=True).values()):
            raise Different(f"{what}: a node of the disk is not as it was")

    def look(self):
        """All that the guard says of the tree."""
        do = self.beside.do
        for path in (b"/", b"/d"):
            do(calls.readdir(path))
        for path in (b"/d/a", b"/d/other", b"/d/new", b"/new"):
            do(calls.stat(path))
        do(calls.seek(self.handle, 0))
        while do(calls.read(self.handle, MAX_COUNT)).number:
            pass

    def go_on(self, act):
        """The act again, with room, then a save and a new start."""
        self.look()
        for call in act(self.handle):
            self.beside.do(call)
        self.look()
        self.beside.save()
        self.beside.start_again(self.beside.driver)
        self.beside.do(calls.open_(BOTH, b"/d/a"))
        self.look()
        if in_model(self.beside.host) != on_disk(self.place, stale_rows=True):
            raise Different("the directory is not the model's tree")
        if self.beside.driver.end() != 0:
            raise Different("the program's status is not 0")


def budgets(program, place):
    """With so much room beside the root and one file: a new node, a write and a growth."""
    for room in ROOMS:
        shutil.rmtree(place, ignore_errors=True)
        place.mkdir(parents=True)
        driver = Driver(program, place)

        def expect(right, call):
            if (came := " ".join(driver.send(f"c {call.hex()}"))) != right:
                raise Different(f"{room} bytes of room: {call.hex()[:20]} gives {came}, not {right}")

        expect("done 2", calls.create(7, b"/a"))
        expect("done 2", calls.open_(BOTH, b"/a"))
        driver.send(f"b {2 * NODE + room}")
        pages = room // PAGE * PAGE
        expect("done 3" if room >= NODE else "refused 28", calls.mkdir(7, b"/b"))
        expect("done 0" if room >= NODE else "refused 2", calls.rmdir(b"/b"))
        expect(f"done {pages}" if pages else "refused 28", calls.write(2, DATA))
        expect("done 0", calls.truncate(2, 0))
        expect("refused 28", calls.truncate(2, room + 1))
        expect("done 0", calls.truncate(2, room))
        driver.send("b 1")  # what needs no room is done on a disk that has none
        expect("done 0", calls.seek(2, 0))
        expect(f"done {room and 1}", calls.write(2, DATA[: room and 1]))
        expect("done 0", calls.truncate(2, 0))
        expect("done 0", calls.close(2))
        driver.kill()


def one(program, place, name, act, fate, first, length):
    """What has come of an act with the disk full from this system call on; None where it has not so many."""
    trial = Trial(program, place)
    error = errno.EDQUOT if first % 2 else errno.ENOSPC
    came, was_met = trial.act(act, f"{first} {length} {error}")
    what = f"{name}, {length} calls from number {first} on"
    if not was_met:
        trial.beside.driver.kill()
        return None
    if came == ["stopped"]:
        if (fate == ENDS and length == 1) or (fate == REMOVES and first > 1):
            raise Different(f"{what}: the guard stops")
        if fate == RENAMES:
            trial.compare_nodes(what)
        trial.beside.driver.kill()
        return "stopped"
    trial.compare(what)
    trial.go_on(act)
    return "refused" if came == REFUSED_FULL else "done"


def every(program, place, name, act, fate, length):
    """Each system call of an act in turn; what has come of them."""
    came, first = [], 1
    while (one_came := one(program, place, name, act, fate, first, length)) is not None:
        came.append(one_came)
        first += 1
    return came


def main():
    program, place = sys.argv[1], Path(sys.argv[2])
    budgets(program, place)
    total, ends = 0, {"refused": 0, "done": 0, "stopped": 0}
    for name, act, fate in ACTS:
        for length in (1, EVER):
            came = every(program, place, name, act, fate, length)
            if fate == ENDS and length == 1 and "refused" not in came:
                raise Different(f"{name}: no system call of it was refused for want of room")
            if fate == RENAMES and length == 1 and "done" not in came:
                raise Different(f"{name}: it stops though nothing more needs room")
            total += len(came)
            for one_came in came:
                ends[one_came] += 1
    if not all(ends.values()):
        raise Different(f"{ends}: nothing is shown by this")
    print(f"host: a budget of bytes met to the byte, with {len(ROOMS)} sorts of room")
    print(
        f"host: {len(ACTS)} acts with the disk full at each of {total} system calls: {ends['refused']} refused and "
        f"undone, {ends['done']} done as far as there was room, {ends['stopped']} that could not be undone stopped"
    )


if __name__ == "__main__":
    main()

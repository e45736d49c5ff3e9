"""Power lost at each change of the disk in a client's life with three saves: the next life has the last save that was
done, whole.

    python3 -m saves.power PROGRAM PLACE      from tests/; PROGRAM is life.c's, PLACE a directory that may be filled

After each loss (tests/host/lost.py: of what was not synced, anything) the client starts again. It has every node and
byte of the last save that was told as done, or of the one that it was at; no call stops. It works on, and power is
lost in its next save.
"""

import shutil
import sys
from pathlib import Path
from random import Random

from host.beside import Different, Driver, Killed, comparable, durable
from host.lost import Disk
from model import calls

# in the second image a file stands before its directory; in the third it is back, renamed while it was open
WORK = [
    [calls.create(6, b"/a"), calls.open_(3, b"/a"), calls.write(2, b"1" * 1500), calls.close(2), calls.mkdir(7, b"/d")],
    [calls.create(7, b"/d/b"), calls.open_(3, b"/a"), calls.truncate(2, 700), calls.close(2), calls.chmod(4, b"/d/b"),
     calls.map_(8192), calls.rename(b"/a", b"/d/a")],
    [calls.remove(b"/d/b"), calls.open_(3, b"/d/a"), calls.rename(b"/d/a", b"/a"), calls.rmdir(b"/d"),
     calls.write(2, b"third"), calls.close(2)],
]
LOOKS = [
    calls.readdir(b"/"), calls.readdir(b"/d"), calls.stat(b"/a"), calls.stat(b"/d"), calls.stat(b"/d/b"),
    *(call for path in (b"/a", b"/d/a") for call in (calls.open_(1, path), calls.read(2, 4096), calls.close(2))),
]
CHANGES = 100  # of the disk, in a save
ON = [calls.create(7, b"/on"), calls.open_(3, b"/a"), calls.seek(2, 100), calls.write(2, b"on"), calls.close(2)]


class Life(Driver):
    """The program of life.c; its host's directory and its own stand apart, and both are lost in part."""

    def __init__(self, program, place):
        super().__init__(program, place, record=True, words=[place])

    def do(self, call):
        answer = self.send(f"c {call.hex()}")
        if answer[0] == "stopped":
            raise Different(f"{call.hex()} stops with {answer[1]}")
        return comparable(call, answer)

    def looks(self):
        return [self.do(call) for call in LOOKS]


def new_place(place):
    for old in (place, durable(place)):
        shutil.rmtree(old, ignore_errors=True)
    for below in ("host/files", "client"):
        (place / below).mkdir(parents=True)


def trees(program, place):
    """What the looks give when nothing is lost: before the first save, and after each."""
    new_place(place)
    life = Life(program, place)
    expect(life.send("b"), ["fresh"])
    found = []
    for work in WORK:
        found.append(life.looks())
        for call in work:
            expect(life.do(call)[0], "done")
        expect(life.send("s"), ["saved"])
    found.append(life.looks())
    life.end()
    return found


def expect(came, right):
    if came != right:
        raise Different(f"{came}, not {right}")


def live_until_killed(life, count):
    """How many saves were done, whether it was at another, and whether it was killed."""
    done, is_saving = 0, False
    try:
        life.send(f"k {count}")
        life.send("b")
        for work in WORK:
            for call in work:
                life.do(call)
            is_saving = True
            expect(life.send("s"), ["saved"])
            done, is_saving = done + 1, False
    except Killed:
        return done, is_saving, True
    return done, is_saving, False


def one_loss(program, place, right, count, random):
    """How many saves a life had done when power was lost, and whether it was at one; None where it came to its end."""
    new_place(place)
    life = Life(program, place)
    done, is_saving, is_killed = live_until_killed(life, count)
    if not is_killed:
        life.kill()
        return None
    lose(life, place, random)
    life = Life(program, place)
    came, saves = life.send("b"), [done, done + 1] if is_saving else [done]
    expect(came in [["loaded" if number else "fresh"] for number in saves], True)
    found = life.looks()
    if found not in [right[number] for number in saves if came == ["loaded" if number else "fresh"]]:
        raise Different(f"the tree is not that of save {' or '.join(map(str, saves))}")
    go_on(program, place, life, found, random)
    return done, is_saving


def lose(life, place, random):
    life.kill()
    Disk(place, durable(place), random).lose()


def go_on(program, place, life, before, random):
    """The new life works and saves; power is lost once more in that save or behind it."""
    work_on(life)
    after = life.looks()
    life.send(f"k {random.randrange(1, CHANGES)}")
    try:
        expect(life.send("s"), ["saved"])
        before = after
    except Killed:
        pass
    lose(life, place, random)
    life = Life(program, place)
    life.send("b")
    expect(life.looks() in (before, after), True)
    expect(life.end(), 0)


def work_on(life):
    """What can be done in the tree that there is: its file may not be there yet, or be elsewhere."""
    for call in ON[: len(ON) if life.do(calls.stat(b"/a"))[0] == "done" else 1]:
        expect(life.do(call)[0], "done")


def main():
    program, place = sys.argv[1], Path(sys.argv[2])
    right = trees(program, place)
    count, met = 0, set()
    while True:
        count += 1
        try:
            came = one_loss(program, place, right, count, Random(count))
        except Exception:
            print(f"saves: power lost at change {count}")
            raise
        if came is None:
            break
        met.add(came)
    expect(met, {(done, is_saving) for done in range(len(WORK)) for is_saving in (False, True)})
    print(f"saves: power lost at each of {count - 1} changes of the disk, each time the last save is there, whole")


if __name__ == "__main__":
    main()

"""Saves that the guard refuses or the disk lets fail, which may be full, and starts that find no pair: nothing is begun
anew, and the last save that was done stays.

    python3 -m saves.faults PROGRAM PLACE      from tests/; PROGRAM is life.c's, PLACE a directory that may be filled
"""

import sys
from pathlib import Path

from model import calls

from .power import WORK, Life, expect, new_place, work_on

EIO, ENOSPC, EBADMSG = "5", "28", "74"
EVER = 1000  # system calls: all that come


def saved(program, place):
    """A life with one save, and what it has then."""
    new_place(place)
    life = Life(program, place)
    expect(life.send("b"), ["fresh"])
    for call in WORK[0]:
        expect(life.do(call)[0], "done")
    expect(life.send("s"), ["saved"])
    return life, life.looks()


def refused(program, place):
    """With an open file; then as if nothing had been."""
    life, _ = saved(program, place)
    life.do(calls.open_(3, b"/a"))
    expect(life.send("s"), ["refused", "16"])
    life.do(calls.close(2))
    expect(life.send("s"), ["saved"])
    expect(life.end(), 0)


def disk_fails(program, place):
    """No other save is done before the next start, even if the disk works again; that has the last one done."""
    life, right = saved(program, place)
    for call in WORK[1]:
        expect(life.do(call)[0], "done")
    life.send("x fsync")
    expect(life.send("s"), ["failed", EIO])
    life.send("x")
    expect(life.send("s"), ["failed", EIO])
    expect(life.send("b"), ["loaded"])
    expect(life.looks(), right)
    work_on(life)
    expect(life.send("s"), ["saved"])
    expect(life.end(), 0)


def full_call(program, place):
    """A call that a full disk ends is nothing to the next save; it has what there was room for."""
    life, right = saved(program, place)
    life.send(f"n 1 1 {ENOSPC}")
    expect(life.do(calls.create(7, b"/new")), ["refused", ENOSPC])
    life.send("n")
    expect(life.looks(), right)
    expect(life.do(calls.open_(3, b"/a"))[0], "done")
    expect(life.do(calls.seek(2, 1500))[:2], ["done", "1500"])
    life.send(f"n 3 1 {ENOSPC}")  # the second page: the first is a write and a cut
    expect(life.do(calls.write(2, b"2" * 2000))[:2], ["done", "548"])
    life.send("n")
    life.do(calls.close(2))
    right = life.looks()
    expect(life.send("s"), ["saved"])
    expect(life.send("b"), ["loaded"])
    expect(life.looks(), right)
    expect(life.end(), 0)


def full_save(program, place):
    """A save that finds no room fails, wherever it does; the last one is whole, or, at the very end, this one, nothing
    of the other takes room, and it is gone on from.
    """
    first = 1
    while full_save_at(program, place, first):
        first += 1
    expect(first > 10, True)


def full_save_at(program, place, first):
    """Whether a save has so many system calls."""
    life, right = saved(program, place)
    for call in WORK[1]:
        expect(life.do(call)[0], "done")
    after = life.looks()
    life.send(f"n {first} {EVER} {ENOSPC}")
    came = life.send("s")
    if int(life.send("n")[0]) == EVER:
        expect(came, ["saved"])
        life.kill()
        return False
    expect(came, ["failed", ENOSPC])
    expect(life.send("b"), ["loaded"])
    expect(life.looks() in ([right] if first < 10 else [right, after]), True)
    expect([path.name for path in place.rglob("*") if path.name in ("new", "digest.new")], [])
    work_on(life)
    expect(life.send("s"), ["saved"])
    expect(life.end(), 0)
    return True


def no_pair(program, place):
    """A digest without its image, or half a digest: no start, and nothing is begun anew."""
    life, right = saved(program, place)
    life.end()
    image, digest = place / "host/image.0", place / "client/digest"
    whole, kept = image.read_bytes(), digest.read_bytes()
    for path, data in ((image, whole[:-1]), (image, b""), (digest, kept[:16]), (digest, b""), (digest, kept + b"x")):
        image.write_bytes(whole)
        digest.write_bytes(kept)
        path.write_bytes(data)
        life = Life(program, place)
        expect(life.send("b"), ["failed", EBADMSG])
        life.kill()
    digest.write_bytes(kept)
    life = Life(program, place)
    expect(life.send("b"), ["loaded"])
    expect(life.looks(), right)
    expect(life.end(), 0)


TRIALS = [refused, disk_fails, full_call, full_save, no_pair]


def main():
    for trial in TRIALS:
        trial(sys.argv[1], Path(sys.argv[2]))
    print(f"saves: {len(TRIALS)} sorts of faults, each met as it must be")


if __name__ == "__main__":
    main()

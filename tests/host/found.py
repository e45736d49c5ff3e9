"""What the host makes of a disk that it does not find as it left it, and of system calls that never go well.

    python3 -m host.found PROGRAM PLACE      from tests/; PROGRAM is drive.c's, PLACE a directory that may be filled
"""

import os
import shutil
import subprocess
import sys
from pathlib import Path

from model import calls

from .beside import Different, Driver, Killed

WORK = [
    calls.mkdir(7, b"/d"), calls.create(6, b"/d/a"), calls.open_(3, b"/d/a"), calls.write(3, b"x" * 1500),
    calls.close(3),
]
THROUGH = [  # calls through a directory, and the reason of the stop where it is a link
    (calls.create(7, b"/d/new"), "3"), (calls.open_(3, b"/d/a"), "4"), (calls.remove(b"/d/a"), "2"),
    (calls.mkdir(7, b"/d/new"), "3"), (calls.readdir(b"/d"), "7"), (calls.rename(b"/d/a", b"/new"), "2"),
    (calls.rename(b"/d/a", b"/d/new"), "2"),
]


class Life:
    """A new place with a file in a directory, and the image of that."""

    def __init__(self, program, place):
        self.program, self.place = program, place
        shutil.rmtree(place, ignore_errors=True)
        place.mkdir(parents=True)
        driver = Driver(program, place)
        for call in WORK:
            expect(driver.send(f"c {call.hex()}")[0], "done")
        self.image, self.digest = driver.send("s")[2:]
        expect(driver.end(), 0)

    def again(self, fails="", errors=None):
        """The program over what is there now, with the image loaded."""
        os.environ["FAILS"] = fails
        driver = Driver(self.program, self.place, errors=errors)
        del os.environ["FAILS"]
        expect(driver.send(f"l {self.image} {self.digest}"), ["done", "0"])
        return driver

    def is_no_host(self, words, fails=""):
        """The program says that there is no host here: nothing is served in a wrong way, and nothing is made anew."""
        try:
            self.again(fails, subprocess.DEVNULL)
        except Killed:
            return
        raise Different(f"{words}: the host starts")


def expect(came, right):
    if came != right:
        raise Different(f"{came}, not {right}")


def damaged_tables(program, place):
    """Emptied, cut at every length, with other bytes at the end, gone beside nodes."""
    life = Life(program, place)
    table = life.place / "table"
    whole = table.read_bytes()
    for length in range(len(whole)):
        table.write_bytes(whole[:length])
        life.is_no_host(f"a table of {length} bytes")
    for wrong in (whole + b"\0", whole[:-1] + b"/\0", bytes(len(whole)), whole.replace(b"/d/a", b"/d/.")):
        table.write_bytes(wrong)
        life.is_no_host(f"a table {wrong!r}")
    table.unlink()
    life.is_no_host("a tree without its table")
    table.write_bytes(whole)
    expect(life.again().send(f"c {calls.stat(b'/d/a').hex()}")[:2], ["done", "1500"])


def nodes_that_cannot_be_looked_at(program, place):
    """A row is dropped where its node is gone, and for no other reason."""
    life = Life(program, place)
    life.is_no_host("nodes that cannot be looked at", fails="fstatat")
    (life.place / "tree/d/a").unlink()
    driver = life.again()
    expect(driver.send(f"c {calls.stat(b'/d').hex()}")[0], "done")
    expect(driver.send(f"c {calls.stat(b'/d/a').hex()}"), ["stopped", "1"])


def links_on_the_way(program, place):
    """A symbolic link in the place of a directory or a file leads nowhere."""
    for call, reason in THROUGH:
        life = Life(program, place)
        outside = life.place / "outside"
        (life.place / "tree/d").rename(outside)
        (life.place / "tree/d").symlink_to("../outside")
        expect(life.again().send(f"c {call.hex()}"), ["stopped", reason])
        expect([below.name for below in outside.iterdir()], ["a"])
    life = Life(program, place)
    (life.place / "tree/d/a").rename(life.place / "outside")
    (life.place / "tree/d/a").symlink_to("../../outside")
    expect(life.again().send(f"c {calls.open_(3, b'/d/a').hex()}"), ["stopped", "4"])


def descriptors_that_stay(program, place):
    """A directory that cannot be listed is closed again."""
    life = Life(program, place)
    driver = life.again("fdopendir")
    files = Path(f"/proc/{driver.process.pid}/fd")
    before = len(list(files.iterdir()))
    expect(driver.send(f"c {calls.readdir(b'/d').hex()}"), ["stopped", "7"])
    expect(len(list(files.iterdir())), before)


def maps_that_stay(program, place):
    """A host that is closed gives its maps back."""
    rounds, longest = 8, 65536
    driver = Life(program, place).again()

    def fill():
        for _ in range(16):
            expect(driver.send(f"c {calls.map_(longest).hex()}")[0], "done")
        expect(driver.send("f"), ["fresh"])

    fill()
    before = memory_of(driver)
    for _ in range(rounds):
        fill()
    if memory_of(driver) - before > rounds * 16 * longest // 2:
        raise Different("maps outlive their host")


def memory_of(driver):
    """How many bytes the program has mapped."""
    return os.sysconf("SC_PAGESIZE") * int(Path(f"/proc/{driver.process.pid}/statm").read_text().split()[0])


def names_that_are_taken(program, place):
    """A rename replaces nothing that came to the disk without the guard, also where the file system cannot say so."""
    for fails in ("", "renameat2"):
        life = Life(program, place)
        (life.place / "tree/d/new").write_bytes(b"not ours")
        expect(life.again(fails).send(f"c {calls.rename(b'/d/a', b'/d/new').hex()}"), ["stopped", "2"])
        expect((life.place / "tree/d/new").read_bytes(), b"not ours")
        expect((life.place / "tree/d/a").stat().st_size, 1500)
        (life.place / "tree/d/new").unlink()
        driver = life.again(fails)
        expect(driver.send(f"c {calls.rename(b'/d/a', b'/d/new').hex()}"), ["done", "0"])
        expect(driver.send(f"c {calls.stat(b'/d/new').hex()}")[:2], ["done", "1500"])
        expect(driver.send(f"c {calls.readdir(b'/d').hex()}")[:2], ["done", "1"])


def killed_at_the_first_node(program, place):
    """Whenever a new host is killed, there is one after it."""
    for count in range(1, 20):
        shutil.rmtree(place, ignore_errors=True)
        place.mkdir(parents=True)
        driver = Driver(program, place)
        driver.send(f"k {count}")
        try:
            driver.send(f"c {WORK[0].hex()}")
        except Killed:
            pass
        driver.kill()
        expect(Driver(program, place).send("f"), ["fresh"])


TRIALS = [
    killed_at_the_first_node, damaged_tables, nodes_that_cannot_be_looked_at, links_on_the_way, descriptors_that_stay,
    maps_that_stay, names_that_are_taken,
]


def main():
    program, place = sys.argv[1], Path(sys.argv[2])
    for trial in TRIALS:
        trial(program, place)
    print(f"host: {len(TRIALS)} trials of what is found and left, each met as it must be")


if __name__ == "__main__":
    main()
